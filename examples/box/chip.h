/* The key chip, with OpenSSL's Ed25519 in its place and a folder for its inside. */
#ifndef CHIP_H
#define CHIP_H

#include "box.h"

bool chip_make(int folder, int slot);
bool chip_erase(int folder, int slot);
bool chip_key(int folder, int slot, uint8_t key[MAHQURITH_KEY], uint8_t evidence[EVIDENCE]);
bool chip_sign(int folder, int slot, const uint8_t *bytes, size_t length, uint8_t signature[SIGNATURE]);

/* For desks and messengers too. The root is the maker's public key, which a person has put there. */
bool chip_valid(const uint8_t key[MAHQURITH_KEY], const uint8_t *bytes, size_t length, const uint8_t signature[SIGNATURE]);
bool chip_attested(const uint8_t root[MAHQURITH_KEY], const uint8_t key[MAHQURITH_KEY], const uint8_t evidence[EVIDENCE]);

/* Both as a marks byte, of a signature on these bytes. */
uint8_t chip_marks(const uint8_t root[MAHQURITH_KEY], const uint8_t key[MAHQURITH_KEY], const uint8_t evidence[EVIDENCE], const uint8_t *bytes,
                   size_t length, const uint8_t signature[SIGNATURE]);

/* What the maker does before a chip leaves the house: a secret goes inside, by which the chip attests its keys. The root is written out. */
bool maker_root(const uint8_t secret[MAHQURITH_KEY], uint8_t root[MAHQURITH_KEY]);

#endif
