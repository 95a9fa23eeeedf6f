# The start of a program: sets gp, which the linker takes for the middle of the data, calls `main`, and exits with what
# it returns. The machine has set sp, and what a file does not fill is zero.
    .section .text.start, "ax"
    .globl _start
_start:
    .option push
    .option norelax
    la gp, __global_pointer$
    .option pop
    call main
    li a7, 93
    ecall
