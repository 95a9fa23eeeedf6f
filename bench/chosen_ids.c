/* chosen_ids COUNT: so many proposal ids, a line of hex each, that all begin at one place of a hash table of the toolchain's
   library and have one tag there, whatever the number of its groups up to 1,024. Its hasher has a fixed seed. */
#include <stdint.h>
#include <stdio.h>
#include <stdlib.h>

static uint64_t fold(uint64_t a, uint64_t b) {
    unsigned __int128 p = (unsigned __int128)a * b;
    return (uint64_t)p ^ (uint64_t)(p >> 64);
}

static const uint64_t MULTIPLIER = 0x9e3779b97f4a7c15;

static uint64_t with_byte(uint64_t state, uint64_t byte) {
    return fold(state ^ (byte | byte << 8 | byte << 16), MULTIPLIER ^ 2);
}

int main(int argc, char **argv) {
    long count = argc > 1 ? atol(argv[1]) : 1500;
    /* the length of the key is fed first */
    uint64_t start = fold(0x243f6a8885a308d3 ^ 10, MULTIPLIER ^ 16);
    for (uint64_t high = 0; count > 0; high++) {
        uint8_t id[10];
        uint64_t state = start;
        for (int i = 0; i < 7; i++) {
            id[i] = high >> 8 * i & 0xff;
            state = with_byte(state, id[i]);
        }
        for (int a = 0; a < 256; a++) {
            uint64_t one = with_byte(state, a);
            for (int b = 0; b < 256; b++) {
                uint64_t two = with_byte(one, b);
                for (int c = 0; c < 256 && count > 0; c++) {
                    uint64_t all = with_byte(two, c);
                    uint32_t hash = (uint32_t)(all ^ all >> 32);
                    if ((hash & 0xff0003ff) != 0x5a000155)
                        continue;
                    id[7] = a, id[8] = b, id[9] = c;
                    for (int i = 0; i < 10; i++)
                        printf("%02x", id[i]);
                    putchar('\n');
                    count--;
                }
            }
        }
    }
    return 0;
}
