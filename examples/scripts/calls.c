/* A lock that makes each call of ckb.h and looks at what comes of it. It exits with the place of the first that is not as
 * it should be, from 1 on. In the end it loads code of 12 bytes from the first cell dep, an ELF file with 120 bytes of
 * headers, and jumps there: the code exits with 0. */
#include "ckb.h"

/* a page that no segment of the file has */
#define PAGE ((uint8_t *)0x100000)

static int is_same(const uint8_t *a, const uint8_t *b, uint64_t count)
{
    while (count--)
        if (*a++ != *b++)
            return 0;
    return 1;
}

static void must(int holds)
{
    static int place;
    place++;
    if (!holds)
        ckb_exit(place);
}

int main(void)
{
    static uint8_t bytes[4096], other[4096];
    uint64_t length = 32, number = 0, since = 7;

    ckb_debug("calls");
    must(ckb_load_script_hash(bytes, &length, 0) == CKB_SUCCESS && length == 32);
    must(ckb_load_cell_by_field(other, &length, 0, 0, CKB_SOURCE_GROUP_INPUT, CKB_CELL_FIELD_LOCK_HASH) == CKB_SUCCESS);
    must(length == 32 && is_same(bytes, other, 32));

    /* an output is four offsets, the capacity, the lock, and no type script */
    length = sizeof bytes;
    must(ckb_load_script(bytes, &length, 0) == CKB_SUCCESS && length >= 53);
    number = 24 + length, length = sizeof other;
    must(ckb_load_cell(other, &length, 0, 0, CKB_SOURCE_GROUP_INPUT) == CKB_SUCCESS && length == number);
    must(is_same(bytes, other + 24, length - 24));
    length = 8;
    must(ckb_load_cell_by_field(&number, &length, 0, 0, CKB_SOURCE_GROUP_INPUT, CKB_CELL_FIELD_CAPACITY) == CKB_SUCCESS);
    must(length == 8 && is_same((uint8_t *)&number, other + 16, 8));
    must(ckb_load_cell_by_field(bytes, &length, 0, 0, CKB_SOURCE_GROUP_INPUT, CKB_CELL_FIELD_TYPE) == CKB_ITEM_MISSING);

    /* an input is its since and the 36 bytes of its out-point */
    length = sizeof bytes;
    must(ckb_load_input(bytes, &length, 0, 0, CKB_SOURCE_GROUP_INPUT) == CKB_SUCCESS && length == 44);
    length = 36;
    must(ckb_load_input_by_field(other, &length, 0, 0, CKB_SOURCE_GROUP_INPUT, CKB_INPUT_FIELD_OUT_POINT) == CKB_SUCCESS);
    must(length == 36 && is_same(bytes + 8, other, 36));
    length = 8;
    must(ckb_load_input_by_field(&since, &length, 0, 0, CKB_SOURCE_GROUP_INPUT, CKB_INPUT_FIELD_SINCE) == CKB_SUCCESS);
    must(length == 8 && since == 0);

    /* the transaction has a length of its own, and its first witness may be empty */
    length = 4, number = 0;
    must(ckb_load_transaction(&number, &length, 0) == CKB_SUCCESS && length == number);
    length = 32;
    must(ckb_load_tx_hash(bytes, &length, 0) == CKB_SUCCESS && length == 32);
    length = 0;
    must(ckb_load_witness(bytes, &length, 0, 0, CKB_SOURCE_GROUP_INPUT) == CKB_SUCCESS);
    must(ckb_load_witness(bytes, &length, 0, 99, CKB_SOURCE_OUTPUT) == CKB_INDEX_OUT_OF_BOUND);

    /* no header dep is there */
    must(ckb_load_header(bytes, &length, 0, 0, CKB_SOURCE_HEADER_DEP) == CKB_INDEX_OUT_OF_BOUND);
    must(ckb_load_header_by_field(bytes, &length, 0, 0, CKB_SOURCE_INPUT, CKB_HEADER_FIELD_EPOCH_NUMBER)
         == CKB_ITEM_MISSING);

    length = 4;
    must(ckb_load_cell_data(bytes, &length, 0, 0, CKB_SOURCE_CELL_DEP) == CKB_SUCCESS && length == 132);
    must(is_same(bytes, (const uint8_t *)"\177ELF", 4));
    must(ckb_load_cell_code(PAGE, 4096, 120, 13, 0, CKB_SOURCE_CELL_DEP) == CKB_LENGTH_NOT_ENOUGH);
    must(ckb_load_cell_code(PAGE, 4096, 120, 12, 0, CKB_SOURCE_CELL_DEP) == CKB_SUCCESS);
    ((void (*)(void))PAGE)();
    return -1;
}
