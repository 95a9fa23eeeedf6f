/* Loads the data of a resolved dep into a page and does what the first byte of the args says; the second is the place of
 * the dep, and the third a byte.
 *
 *   0  loads it as code, calls it with the byte in a0, and exits with what it returns
 *   1  loads it as data, and calls it
 *   2  loads it as code, and stores the byte at its end, in the same page
 *   3  loads it as code, and exits with the byte that stands at that place of the page
 *   4  loads it as code, and calls the last address of memory
 *   5  loads it as code twice into one page
 *   6  loads it as code, and so many bytes of it as data into the last bytes of the page before and the first of it
 */
#include "script.h"

_Noreturn void _start(void)
{
    load_args(BUFFER, 3);
    u8 what = BUFFER[0], place = BUFFER[1], byte = BUFFER[2];
    *LENGTH = 0;
    struct registers r = { (u64)BUFFER, (u64)LENGTH, 0, place, CELL_DEPS, 0, LOAD_CELL_DATA };
    call(&r);
    u64 size = *LENGTH;
    *LENGTH = PAGE;
    r = (struct registers){ (u64)PAGES, (u64)LENGTH, 0, place, CELL_DEPS, 0, LOAD_CELL_DATA };
    if (what != 1)
        r = (struct registers){ (u64)PAGES, PAGE, 0, size, place, CELL_DEPS, LOAD_CELL_DATA_AS_CODE };
    call(&r);
    if (r.a0)
        exit_with(100 + (long)r.a0);
    if (what == 2)
        PAGES[size] = byte;
    if (what == 3)
        exit_with((signed char)PAGES[byte]);
    if (what == 4)
        ((long (*)(long))0x3ffffe)(byte);
    if (what == 5) {
        r = (struct registers){ (u64)PAGES, PAGE, 0, size, place, CELL_DEPS, LOAD_CELL_DATA_AS_CODE };
        call(&r);
    }
    if (what == 6) {
        *LENGTH = byte;
        r = (struct registers){ (u64)PAGES - 2, (u64)LENGTH, 0, place, CELL_DEPS, 0, LOAD_CELL_DATA };
        call(&r);
    }
    exit_with(((long (*)(long))PAGES)(byte));
}
