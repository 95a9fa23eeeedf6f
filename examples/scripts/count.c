/* Counts down from the number that the script's args are, of at most 8 bytes, and exits with 0. From 0 it goes on for
 * 2^64 rounds. */
#include "script.h"

_Noreturn void _start(void)
{
    volatile u64 *number = (volatile u64 *)BUFFER;
    *number = 0;
    load_args(BUFFER, 8);
    u64 left = *number;
    do
        __asm__ volatile("" : "+r"(left));
    while (--left);
    exit_with(0);
}
