/* A true chip has its keys inside and lets none out. Here a file `key0` or `key1` has the secret of a slot and `maker` the maker's, and whoever reads them
   has the keys. Making and erasing are durable when they return, and a cut leaves the one state or the other. */
#include "chip.h"

#include <errno.h>
#include <fcntl.h>
#include <openssl/crypto.h>
#include <openssl/evp.h>
#include <openssl/rand.h>
#include <stdio.h>
#include <stdlib.h>
#include <unistd.h>

static const char *name_of(int slot) { return slot == 0 ? "key0" : "key1"; }

/* False where there is none. A chip that cannot say whether it has a key must not be taken for one that has none: the program ends. */
static bool secret_read(int folder, const char *name, uint8_t secret[MAHQURITH_KEY]) {
    int file = openat(folder, name, O_RDONLY);
    if (file < 0 && errno == ENOENT)
        return false;
    ssize_t got = file < 0 ? -1 : read(file, secret, MAHQURITH_KEY);
    if (got != MAHQURITH_KEY) {
        fprintf(stderr, "box: the chip does not answer: %s\n", name);
        exit(3);
    }
    close(file);
    return true;
}

static EVP_PKEY *key_of(int folder, const char *name) {
    uint8_t secret[MAHQURITH_KEY];
    if (!secret_read(folder, name, secret))
        return NULL;
    EVP_PKEY *key = EVP_PKEY_new_raw_private_key(EVP_PKEY_ED25519, NULL, secret, sizeof secret);
    OPENSSL_cleanse(secret, sizeof secret);
    return key;
}

static bool written(int folder, const char *name, const uint8_t secret[MAHQURITH_KEY], int how) {
    int file = openat(folder, name, how, 0600);
    bool done = file >= 0 && write(file, secret, MAHQURITH_KEY) == MAHQURITH_KEY && fsync(file) == 0;
    return (file < 0 || close(file) == 0) && done;
}

bool chip_make(int folder, int slot) {
    uint8_t secret[MAHQURITH_KEY];
    bool made = RAND_priv_bytes(secret, sizeof secret) == 1 && written(folder, "key.new", secret, O_WRONLY | O_CREAT | O_TRUNC) &&
                renameat(folder, "key.new", folder, name_of(slot)) == 0 && fsync(folder) == 0;
    OPENSSL_cleanse(secret, sizeof secret);
    return made;
}

/* What a cut left of a key that was being made goes too. */
bool chip_erase(int folder, int slot) {
    const uint8_t zeros[MAHQURITH_KEY] = {0};
    const char *names[] = {name_of(slot), "key.new"};
    for (int i = 0; i < 2; i++) {
        if (faccessat(folder, names[i], F_OK, 0) != 0 && errno == ENOENT)
            continue;
        if (!written(folder, names[i], zeros, O_WRONLY) || unlinkat(folder, names[i], 0) != 0)
            return false;
    }
    return fsync(folder) == 0;
}

static bool signature_made(EVP_PKEY *secret, const uint8_t *bytes, size_t length, uint8_t signature[SIGNATURE]) {
    size_t room = SIGNATURE;
    EVP_MD_CTX *work = EVP_MD_CTX_new();
    bool made = secret != NULL && work != NULL && EVP_DigestSignInit(work, NULL, NULL, NULL, secret) == 1 &&
                EVP_DigestSign(work, signature, &room, bytes, length) == 1 && room == SIGNATURE;
    EVP_MD_CTX_free(work);
    return made;
}

bool chip_sign(int folder, int slot, const uint8_t *bytes, size_t length, uint8_t signature[SIGNATURE]) {
    EVP_PKEY *secret = key_of(folder, name_of(slot));
    bool made = signature_made(secret, bytes, length, signature);
    EVP_PKEY_free(secret);
    return made;
}

/* The evidence is the maker's signature on the key. */
bool chip_key(int folder, int slot, uint8_t key[MAHQURITH_KEY], uint8_t evidence[EVIDENCE]) {
    size_t length = MAHQURITH_KEY;
    EVP_PKEY *secret = key_of(folder, name_of(slot));
    EVP_PKEY *maker = key_of(folder, "maker");
    bool there = secret != NULL && EVP_PKEY_get_raw_public_key(secret, key, &length) == 1 && signature_made(maker, key, MAHQURITH_KEY, evidence);
    EVP_PKEY_free(maker);
    EVP_PKEY_free(secret);
    return there;
}

bool chip_valid(const uint8_t key[MAHQURITH_KEY], const uint8_t *bytes, size_t length, const uint8_t signature[SIGNATURE]) {
    EVP_PKEY *public = EVP_PKEY_new_raw_public_key(EVP_PKEY_ED25519, NULL, key, MAHQURITH_KEY);
    EVP_MD_CTX *work = EVP_MD_CTX_new();
    bool valid = public != NULL && work != NULL && EVP_DigestVerifyInit(work, NULL, NULL, NULL, public) == 1 &&
                 EVP_DigestVerify(work, signature, SIGNATURE, bytes, length) == 1;
    EVP_MD_CTX_free(work);
    EVP_PKEY_free(public);
    return valid;
}

bool chip_attested(const uint8_t root[MAHQURITH_KEY], const uint8_t key[MAHQURITH_KEY], const uint8_t evidence[EVIDENCE]) {
    return chip_valid(root, key, MAHQURITH_KEY, evidence);
}

uint8_t chip_marks(const uint8_t root[MAHQURITH_KEY], const uint8_t key[MAHQURITH_KEY], const uint8_t evidence[EVIDENCE], const uint8_t *bytes,
                   size_t length, const uint8_t signature[SIGNATURE]) {
    uint8_t attested = chip_attested(root, key, evidence) ? MAHQURITH_ATTESTED : 0;
    return attested | (chip_valid(key, bytes, length, signature) ? MAHQURITH_VALID : 0);
}

bool maker_root(const uint8_t secret[MAHQURITH_KEY], uint8_t root[MAHQURITH_KEY]) {
    size_t length = MAHQURITH_KEY;
    EVP_PKEY *key = EVP_PKEY_new_raw_private_key(EVP_PKEY_ED25519, NULL, secret, MAHQURITH_KEY);
    bool made = key != NULL && EVP_PKEY_get_raw_public_key(key, root, &length) == 1;
    EVP_PKEY_free(key);
    return made;
}
