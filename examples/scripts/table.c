/* A table of operations, by which a text is worked out: exits with (6 * 7 - 3) / 2, rounded down, which is 19. */
#include "ckb.h"

static long add(long a, long b) { return a + b; }
static long subtract(long a, long b) { return a - b; }
static long multiply(long a, long b) { return a * b; }
static long divide(long a, long b) { return a / b; }

static const struct {
    char sign;
    long (*of)(long, long);
} OPERATIONS[] = { { '+', add }, { '-', subtract }, { '*', multiply }, { '/', divide } };

const char *text = "6 7 * 3 - 2 /";

int main(void)
{
    long stack[8];
    int count = 0;
    ckb_debug(text);
    for (const char *it = text; *it; it++) {
        if (*it >= '0' && *it <= '9')
            stack[count++] = *it - '0';
        for (int i = 0; i < 4; i++)
            if (OPERATIONS[i].sign == *it) {
                count--;
                stack[count - 1] = OPERATIONS[i].of(stack[count - 1], stack[count]);
            }
    }
    return (int)stack[0];
}
