/* The workload `signature` of exec.py: the public key of each signature of signed.h, which exec.py writes, is recovered
 * ROUNDS times over. It exits with 0 where each is the one that signed, and with 1 at another. */
#include <string.h>

#include <secp256k1.h>
#include <secp256k1_recovery.h>

#include "ckb.h"

struct signed_message {
    uint8_t message[32], signature[65], key[33];
};

#include "signed.h"

static int is_recovered(const struct signed_message *it)
{
    const secp256k1_context *context = secp256k1_context_static;
    secp256k1_ecdsa_recoverable_signature parsed;
    secp256k1_pubkey found;
    uint8_t key[33];
    size_t length = sizeof key;
    return secp256k1_ecdsa_recoverable_signature_parse_compact(context, &parsed, it->signature, it->signature[64])
        && secp256k1_ecdsa_recover(context, &found, &parsed, it->message)
        && secp256k1_ec_pubkey_serialize(context, key, &length, &found, SECP256K1_EC_COMPRESSED)
        && !memcmp(key, it->key, sizeof key);
}

int main(void)
{
    for (int round = 0; round < ROUNDS; round++)
        for (unsigned i = 0; i < sizeof all / sizeof *all; i++)
            if (!is_recovered(&all[i]))
                return 1;
    return 0;
}

/* Where the library would print and end the program. */
void secp256k1_default_illegal_callback_fn(const char *text, void *data)
{
    (void)text, (void)data;
    ckb_exit(-100);
}

void secp256k1_default_error_callback_fn(const char *text, void *data)
{
    secp256k1_default_illegal_callback_fn(text, data);
}
