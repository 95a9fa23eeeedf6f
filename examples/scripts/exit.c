/* Exits with the first byte of the script's args, signed, or with 0 where they are empty. */
#include "script.h"

_Noreturn void _start(void)
{
    BUFFER[0] = 0;
    load_args(BUFFER, 1);
    exit_with((signed char)BUFFER[0]);
}
