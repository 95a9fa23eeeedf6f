/* The syscalls of the machine as functions, with the names that the field has for them.
 *
 * A load stores at most `*length` bytes of an item at `to`, from `offset` on, and sets `*length` to how many the item
 * has from there. It answers 0, or one of the results below. A source or a field that there is not is fault 5. */
#ifndef CKB_H
#define CKB_H
#include <stdint.h>

enum { CKB_SUCCESS, CKB_INDEX_OUT_OF_BOUND, CKB_ITEM_MISSING, CKB_LENGTH_NOT_ENOUGH };

#define CKB_SOURCE_INPUT 1
#define CKB_SOURCE_OUTPUT 2
#define CKB_SOURCE_CELL_DEP 3
#define CKB_SOURCE_HEADER_DEP 4
#define CKB_SOURCE_GROUP_INPUT 0x0100000000000001
#define CKB_SOURCE_GROUP_OUTPUT 0x0100000000000002

enum {
    CKB_CELL_FIELD_CAPACITY, CKB_CELL_FIELD_DATA_HASH, CKB_CELL_FIELD_LOCK, CKB_CELL_FIELD_LOCK_HASH,
    CKB_CELL_FIELD_TYPE, CKB_CELL_FIELD_TYPE_HASH, CKB_CELL_FIELD_OCCUPIED_CAPACITY
};
enum { CKB_HEADER_FIELD_EPOCH_NUMBER, CKB_HEADER_FIELD_EPOCH_START_BLOCK_NUMBER, CKB_HEADER_FIELD_EPOCH_LENGTH };
enum { CKB_INPUT_FIELD_OUT_POINT, CKB_INPUT_FIELD_SINCE };

static inline long ckb_syscall(long number, uint64_t x0, uint64_t x1, uint64_t x2, uint64_t x3, uint64_t x4, uint64_t x5)
{
    register uint64_t a0 __asm__("a0") = x0;
    register uint64_t a1 __asm__("a1") = x1;
    register uint64_t a2 __asm__("a2") = x2;
    register uint64_t a3 __asm__("a3") = x3;
    register uint64_t a4 __asm__("a4") = x4;
    register uint64_t a5 __asm__("a5") = x5;
    register long a7 __asm__("a7") = number;
    __asm__ volatile("ecall" : "+r"(a0) : "r"(a1), "r"(a2), "r"(a3), "r"(a4), "r"(a5), "r"(a7) : "memory");
    return (long)a0;
}

/* Ends the program. The low byte of the code counts, signed. */
_Noreturn static inline void ckb_exit(long code)
{
    ckb_syscall(93, (uint64_t)code, 0, 0, 0, 0, 0);
    __builtin_unreachable();
}

/* A text up to its zero byte. This node drops it. */
static inline void ckb_debug(const char *text)
{
    ckb_syscall(2177, (uint64_t)text, 0, 0, 0, 0, 0);
}

/* -------------------------------------------------------------- of the transaction and the script */

static inline long ckb_load_transaction(void *to, uint64_t *length, uint64_t offset)
{
    return ckb_syscall(2051, (uint64_t)to, (uint64_t)length, offset, 0, 0, 0);
}

static inline long ckb_load_script(void *to, uint64_t *length, uint64_t offset)
{
    return ckb_syscall(2052, (uint64_t)to, (uint64_t)length, offset, 0, 0, 0);
}

static inline long ckb_load_tx_hash(void *to, uint64_t *length, uint64_t offset)
{
    return ckb_syscall(2061, (uint64_t)to, (uint64_t)length, offset, 0, 0, 0);
}

static inline long ckb_load_script_hash(void *to, uint64_t *length, uint64_t offset)
{
    return ckb_syscall(2062, (uint64_t)to, (uint64_t)length, offset, 0, 0, 0);
}

/* -------------------------------------------------------------- what stands at an index of a source */

static inline long ckb_load_cell(void *to, uint64_t *length, uint64_t offset, uint64_t index, uint64_t source)
{
    return ckb_syscall(2071, (uint64_t)to, (uint64_t)length, offset, index, source, 0);
}

static inline long ckb_load_header(void *to, uint64_t *length, uint64_t offset, uint64_t index, uint64_t source)
{
    return ckb_syscall(2072, (uint64_t)to, (uint64_t)length, offset, index, source, 0);
}

static inline long ckb_load_input(void *to, uint64_t *length, uint64_t offset, uint64_t index, uint64_t source)
{
    return ckb_syscall(2073, (uint64_t)to, (uint64_t)length, offset, index, source, 0);
}

static inline long ckb_load_witness(void *to, uint64_t *length, uint64_t offset, uint64_t index, uint64_t source)
{
    return ckb_syscall(2074, (uint64_t)to, (uint64_t)length, offset, index, source, 0);
}

static inline long ckb_load_cell_data(void *to, uint64_t *length, uint64_t offset, uint64_t index, uint64_t source)
{
    return ckb_syscall(2092, (uint64_t)to, (uint64_t)length, offset, index, source, 0);
}

static inline long ckb_load_cell_by_field(void *to, uint64_t *length, uint64_t offset, uint64_t index, uint64_t source,
                                          uint64_t field)
{
    return ckb_syscall(2081, (uint64_t)to, (uint64_t)length, offset, index, source, field);
}

static inline long ckb_load_header_by_field(void *to, uint64_t *length, uint64_t offset, uint64_t index, uint64_t source,
                                            uint64_t field)
{
    return ckb_syscall(2082, (uint64_t)to, (uint64_t)length, offset, index, source, field);
}

static inline long ckb_load_input_by_field(void *to, uint64_t *length, uint64_t offset, uint64_t index, uint64_t source,
                                           uint64_t field)
{
    return ckb_syscall(2083, (uint64_t)to, (uint64_t)length, offset, index, source, field);
}

/* Makes `size` bytes of memory code: the data of a cell from `offset` on, `count` bytes of it, and zeros after them.
 * `to` and `size` are multiples of 4,096. */
static inline long ckb_load_cell_code(void *to, uint64_t size, uint64_t offset, uint64_t count, uint64_t index,
                                      uint64_t source)
{
    return ckb_syscall(2091, (uint64_t)to, size, offset, count, index, source);
}

#endif
