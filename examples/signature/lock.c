/* A lock that opens by a signature over secp256k1, as the first lock of the field does.
 *
 * The args are the first 20 bytes of the ckbhash of a public key, of 33 bytes. The first witness of the group is a
 * `WitnessArgs` whose lock is the signature, 65 bytes: r and s, and which public key is recovered of them. The message
 * that is signed is the ckbhash of
 *
 *     the transaction hash,
 *     the first witness of the group, with 65 zero bytes in place of the signature,
 *     the other witnesses of the group, and those past the last input of the transaction,
 *
 * each witness after its length, a u64. The lock exits with 0, or with an error that the field has for it. */
#include <string.h>

#include <secp256k1.h>
#include <secp256k1_recovery.h>

#include "ckb.h"
#include "ckbhash.h"

enum {
    ARGUMENTS_LENGTH = -1, ENCODING = -2, SYSCALL = -3, RECOVER_KEY = -11, PARSE_SIGNATURE = -14, SERIALIZE_KEY = -15,
    KEY_HASH = -31
};

enum {
    ARGS = 53,              /* in a `Script`: four offsets, 32 bytes, a byte, and the length of the args */
    SIGNATURE = 20,         /* in a `WitnessArgs`: four offsets, and the length of the lock */
    AFTER = SIGNATURE + 65
};

static uint32_t number_at(const uint8_t *bytes)
{
    return bytes[0] | bytes[1] << 8 | bytes[2] << 16 | (uint32_t)bytes[3] << 24;
}

static void add_length(struct ckbhash *hash, uint64_t length)
{
    ckbhash_update(hash, &length, sizeof length);
}

/* Adds the bytes of a witness from an offset to an end. */
static void add(struct ckbhash *hash, uint64_t index, uint64_t source, uint64_t offset, uint64_t end)
{
    uint8_t piece[1024];
    while (offset < end) {
        uint64_t length = end - offset < sizeof piece ? end - offset : sizeof piece, count = length;
        if (ckb_load_witness(piece, &length, offset, index, source) || length < count)
            ckb_exit(SYSCALL);
        ckbhash_update(hash, piece, count);
        offset += count;
    }
}

/* Adds the first witness of the group without its signature, which goes to a place of its own. */
static void add_first(struct ckbhash *hash, uint8_t *signature)
{
    uint8_t start[AFTER];
    uint64_t length = sizeof start;
    if (ckb_load_witness(start, &length, 0, 0, CKB_SOURCE_GROUP_INPUT))
        ckb_exit(SYSCALL);
    if (length < AFTER || number_at(start) != length || number_at(start + 4) != 16)
        ckb_exit(ENCODING);
    if (number_at(start + 8) != AFTER || number_at(start + 16) != 65)
        ckb_exit(ARGUMENTS_LENGTH);
    memcpy(signature, start + SIGNATURE, 65);
    memset(start + SIGNATURE, 0, 65);
    add_length(hash, length);
    ckbhash_update(hash, start, AFTER);
    add(hash, 0, CKB_SOURCE_GROUP_INPUT, AFTER, length);
}

/* Adds the witnesses of a source from an index on, to the last. */
static void add_from(struct ckbhash *hash, uint64_t index, uint64_t source)
{
    for (;; index++) {
        uint64_t length = 0;
        if (ckb_load_witness(0, &length, 0, index, source))
            return;
        add_length(hash, length);
        add(hash, index, source, 0, length);
    }
}

/* How many inputs the transaction has. */
static uint64_t count_inputs(void)
{
    for (uint64_t count = 0;; count++) {
        uint64_t length = 0;
        if (ckb_load_input(0, &length, 0, count, CKB_SOURCE_INPUT))
            return count;
    }
}

/* The message that is signed, and the signature. */
static void load_signed(uint8_t *message, uint8_t *signature)
{
    struct ckbhash hash;
    ckbhash_init(&hash);
    uint64_t length = 32;
    if (ckb_load_tx_hash(message, &length, 0))
        ckb_exit(SYSCALL);
    ckbhash_update(&hash, message, 32);
    add_first(&hash, signature);
    add_from(&hash, 1, CKB_SOURCE_GROUP_INPUT);
    add_from(&hash, count_inputs(), CKB_SOURCE_INPUT);
    ckbhash_final(&hash, message);
}

/* The public key that made the signature. */
static void recover(const uint8_t *message, const uint8_t *signature, uint8_t *key)
{
    const secp256k1_context *context = secp256k1_context_static;
    secp256k1_ecdsa_recoverable_signature parsed;
    secp256k1_pubkey found;
    size_t length = 33;
    /* the library ends the program where its caller is wrong */
    if (signature[64] > 3
        || !secp256k1_ecdsa_recoverable_signature_parse_compact(context, &parsed, signature, signature[64]))
        ckb_exit(PARSE_SIGNATURE);
    if (!secp256k1_ecdsa_recover(context, &found, &parsed, message))
        ckb_exit(RECOVER_KEY);
    if (!secp256k1_ec_pubkey_serialize(context, key, &length, &found, SECP256K1_EC_COMPRESSED))
        ckb_exit(SERIALIZE_KEY);
}

int main(void)
{
    uint8_t script[ARGS + 20], message[32], signature[65], key[33], hashed[32];
    uint64_t length = sizeof script;
    if (ckb_load_script(script, &length, 0))
        return SYSCALL;
    if (length != sizeof script)
        return ARGUMENTS_LENGTH;
    load_signed(message, signature);
    recover(message, signature, key);
    struct ckbhash hash;
    ckbhash_init(&hash);
    ckbhash_update(&hash, key, sizeof key);
    ckbhash_final(&hash, hashed);
    return memcmp(hashed, script + ARGS, 20) ? KEY_HASH : 0;
}

/* Where the library would print and end the program. EBREAK, by which it would trap, has no effect here. */
void secp256k1_default_illegal_callback_fn(const char *text, void *data)
{
    (void)data;
    ckb_debug(text);
    ckb_exit(-100);
}

void secp256k1_default_error_callback_fn(const char *text, void *data)
{
    secp256k1_default_illegal_callback_fn(text, data);
}
