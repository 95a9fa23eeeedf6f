/* What the C library picolibc asks for: where text goes, and how a program ends. A line is one call of debug printing,
 * and so are 127 bytes of a longer one. */
#include <stdio.h>
#include <stdlib.h>

#include "ckb.h"

static char line[128];
static unsigned length;

static int flush(FILE *file)
{
    (void)file;
    line[length] = 0;
    if (length)
        ckb_debug(line);
    length = 0;
    return 0;
}

static int put(char c, FILE *file)
{
    if (c != '\n')
        line[length++] = c;
    if (c == '\n' || length == sizeof line - 1)
        flush(file);
    return (unsigned char)c;
}

static FILE out = FDEV_SETUP_STREAM(put, NULL, flush, _FDEV_SETUP_WRITE);
FILE *const stdout = &out;
FILE *const stderr = &out;

_Noreturn void _exit(int code)
{
    flush(&out);
    ckb_exit(code);
}

/* The library's own would raise a signal. A failed `assert` ends here too. */
_Noreturn void abort(void)
{
    _exit(-6);
}
