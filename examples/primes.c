/* Counts the primes below 100 and exits with their count, 25.
 *
 *     riscv64-unknown-elf-gcc -O2 -march=rv64imc -mabi=lp64 -nostdlib -static primes.c -o primes.elf
 */

/* Ends the program: the number of the call goes into a7, the code into a0. */
_Noreturn static void exit_with(long code)
{
    register long a0 __asm__("a0") = code;
    register long a7 __asm__("a7") = 93;
    __asm__ volatile("ecall" : : "r"(a0), "r"(a7));
    __builtin_unreachable();
}

static int is_prime(int n)
{
    for (int divisor = 2; divisor * divisor <= n; divisor++)
        if (n % divisor == 0)
            return 0;
    return 1;
}

/* There is no operating system: the program begins at this symbol, with the
 * stack pointer set and all other registers 0. */
_Noreturn void _start(void)
{
    int count = 0;
    for (int n = 2; n < 100; n++)
        count += is_prime(n);
    exit_with(count);
}
