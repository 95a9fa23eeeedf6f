/* The floor under opening a store: what it costs to read a log and to hash the
 * header of each block, with nothing checked and nothing kept but the log.
 *
 *     logread LOG
 *
 * prints `tip NUMBER HASH`: the block with the greatest number, of several the
 * first.  C11 and POSIX. */
#define _POSIX_C_SOURCE 200809L
#include <fcntl.h>
#include <stdio.h>
#include <stdlib.h>
#include <sys/stat.h>
#include <unistd.h>
#include "ckbhash.h"

static void need(int ok, const char *what)
{
    if (!ok) {
        perror(what);
        exit(5);
    }
}

static uint32_t u32_at(const uint8_t *p)
{
    uint32_t v;
    memcpy(&v, p, 4);
    return v;
}

static uint64_t u64_at(const uint8_t *p)
{
    uint64_t v;
    memcpy(&v, p, 8);
    return v;
}

int main(int argc, char **argv)
{
    if (argc != 2)
        return 2;
    int fd = open(argv[1], O_RDONLY);
    struct stat found;
    need(fd >= 0 && fstat(fd, &found) == 0, argv[1]);
    size_t size = (size_t)found.st_size, given = 0;
    uint8_t *log = malloc(size + 1);
    need(log != NULL, "malloc");
    while (given < size) {
        ssize_t n = read(fd, log + given, size - given);
        need(n > 0, "read");
        given += (size_t)n;
    }
    uint64_t best = 0;
    uint8_t tip[32];
    int some = 0;
    size_t at = 8;
    while (at + 6 < size && log[at] == 1) {
        uint8_t kind = log[at + 1];
        uint64_t body = u32_at(log + at + 2);
        if (body >= size - at - 6)
            break;
        /* a block of kind 3 stands after its length */
        const uint8_t *block = log + at + 6 + (kind == 3 ? 4 : 0);
        if (kind != 1) {
            const uint8_t *header = block + u32_at(block + 4);
            struct ckbhash s;
            uint8_t d[32];
            ckbhash_init(&s);
            ckbhash_update(&s, header, 208);
            ckbhash_final(&s, d);
            uint64_t number = u64_at(header + 16);
            if (!some || number > best) {
                some = 1;
                best = number;
                memcpy(tip, d, 32);
            }
        }
        at += 6 + body;
    }
    if (!some)
        return 7;
    printf("tip %llu 0x", (unsigned long long)best);
    for (int i = 0; i < 32; i++)
        printf("%02x", tip[i]);
    printf("\n");
    return 0;
}
