/* Makes the syscalls of a table, one after the other, and compares what came of each.
 *
 * The table is the data of a resolved dep, whose place is the first byte of the script's args. So it may hold what
 * follows from the args, the script's hash among it. An entry is 24 bytes: numbers of two bytes and a checksum of
 * four. The script exits with 0 where all agree, with the place of the first entry that does not, counted from 1, and
 * with -1 where there is no table.
 *
 * A number is itself below 0xc000. From 0xff00 on it is one of LARGE, and else 256 times what it is above 0xc000: an
 * address. */
#include "script.h"

enum { FILL = 0xa5 };

struct entry {
    u16 number, a0, a1, a2, a3, a4, a5;
    u16 length;                 /* the word at LENGTH before the call */
    u16 from, count;            /* the bytes that are looked at */
    u32 checksum;
};

static const u64 LARGE[] = {
    0x0100000000000001, 0x0100000000000002, 0x0100000000000003, 0x0100000000000004,
    0xffffffffffffffff, 0x0000000100000000, 0x0000000100000001, 0x0000000100000804,
    0x3ffff8, 0x3ffff9, 0x3fffff, 0x400000, 0x8000000000000000, 0x0100000000000000, 0x0200000000000001, 0x10000,
};

static u64 value_of(u16 word)
{
    if (word >= 0xff00)
        return LARGE[word - 0xff00];
    return word >= 0xc000 ? (u64)(word - 0xc000) << 8 : word;
}

/* FNV-1a with 32 bits. */
static u32 fold(u32 sum, const volatile u8 *bytes, u64 count)
{
    for (; count; count--)
        sum = (sum ^ *bytes++) * 16777619;
    return sum;
}

/* The checksum of a0, of the sum of the other registers, of the length word and of the bytes that are looked at. They
 * are filled before a call that does not make code of them. */
static u32 try(const struct entry *e)
{
    volatile u8 *from = (volatile u8 *)value_of(e->from);
    struct registers r = {
        value_of(e->a0), value_of(e->a1), value_of(e->a2), value_of(e->a3), value_of(e->a4), value_of(e->a5),
        value_of(e->number),
    };
    if (e->number != LOAD_CELL_DATA_AS_CODE)
        for (u64 k = 0; k < e->count; k++)
            from[k] = FILL;
    *LENGTH = value_of(e->length);
    call(&r);
    u64 two[2] = { r.a0, r.a1 + r.a2 + r.a3 + r.a4 + r.a5 + r.a7 };
    return fold(fold(fold(2166136261, (volatile u8 *)two, 16), (volatile u8 *)LENGTH, 8), from, e->count);
}

_Noreturn void _start(void)
{
    load_args(BUFFER, 1);
    *LENGTH = 0x10000;
    struct registers r = { (u64)TABLE, (u64)LENGTH, 0, *BUFFER, CELL_DEPS, 0, LOAD_CELL_DATA };
    call(&r);
    u64 count = *LENGTH / sizeof(struct entry);
    if (r.a0 || !count)
        exit_with(-1);
    const struct entry *table = (const struct entry *)TABLE;
    for (u64 k = 0; k < count; k++)
        if (try(table + k) != table[k].checksum)
            exit_with((long)k + 1);
    exit_with(0);
}
