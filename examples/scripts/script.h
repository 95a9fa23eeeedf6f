/* What the scripts of this folder share. There is no C library: memory is laid out by hand, below.
 *
 * A script begins at `_start`, with the stack pointer set and all other registers 0. */
typedef unsigned char u8;
typedef unsigned short u16;
typedef unsigned int u32;
typedef unsigned long u64;

enum {
    EXIT = 93, LOAD_SCRIPT = 2052, LOAD_CELL_DATA_AS_CODE = 2091, LOAD_CELL_DATA = 2092,
    CELL_DEPS = 3,
    PAGE = 4096,
    ARGS_AT = 53,               /* in a `Script`: four offsets, 32 bytes, a byte, and the length of the args */
};

/* The code is at 0x1000, the stack ends at 0x3ffff0. */
#define LENGTH ((volatile u64 *)0x2000)
#define BUFFER ((volatile u8 *)0x3000)
#define TABLE ((volatile u8 *)0x40000)
#define PAGES ((volatile u8 *)0x100000)

struct registers { u64 a0, a1, a2, a3, a4, a5, a7; };

/* ECALL: all registers that a syscall looks at, as they are before it and after it. */
static inline void call(struct registers *r)
{
    register u64 a0 __asm__("a0") = r->a0;
    register u64 a1 __asm__("a1") = r->a1;
    register u64 a2 __asm__("a2") = r->a2;
    register u64 a3 __asm__("a3") = r->a3;
    register u64 a4 __asm__("a4") = r->a4;
    register u64 a5 __asm__("a5") = r->a5;
    register u64 a7 __asm__("a7") = r->a7;
    __asm__ volatile("ecall" : "+r"(a0), "+r"(a1), "+r"(a2), "+r"(a3), "+r"(a4), "+r"(a5), "+r"(a7) : : "memory");
    r->a0 = a0, r->a1 = a1, r->a2 = a2, r->a3 = a3, r->a4 = a4, r->a5 = a5, r->a7 = a7;
}

_Noreturn static inline void exit_with(long code)
{
    register long a0 __asm__("a0") = code;
    register long a7 __asm__("a7") = EXIT;
    __asm__ volatile("ecall" : : "r"(a0), "r"(a7));
    __builtin_unreachable();
}

/* Loads the bytes of the script's args, at most so many, and answers how many there are. */
static inline u64 load_args(volatile u8 *to, u64 most)
{
    *LENGTH = most;
    struct registers r = { (u64)to, (u64)LENGTH, ARGS_AT, 0, 0, 0, LOAD_SCRIPT };
    call(&r);
    return *LENGTH;
}
