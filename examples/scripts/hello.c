/* Prints by the C library picolibc, and exits with how many bytes a line has: "25 primes below 100\n", which are 20. */
#include <stdio.h>

int main(void)
{
    return printf("%d primes below %d\n", 25, 100);
}
