/* Measures SHA-256 by the library, by plain C, by mbedTLS, libsodium and nettle and by OpenSSL, in turn.
   Prints a line 'NAME LENGTH SPEED' for each measurement, in MB/s; bench/run makes the table. */
#define _POSIX_C_SOURCE 200809L
#define OPENSSL_SUPPRESS_DEPRECATED
#include <mbedtls/sha256.h>
#include <mbedtls/version.h>
#include <nettle/sha2.h>
#include <openssl/crypto.h>
#include <openssl/sha.h>
#include <sodium.h>
#include <stdint.h>
#include <stdio.h>
#include <stdlib.h>
#include <string.h>
#include <time.h>

enum { DIGEST = 32, LONGEST = 65536, ROUNDS = 100, MEASURED_BYTES = 1 << 17 };

static const size_t lengths[] = {64, 1024, LONGEST};

uint32_t mahqurith_sha256(const uint8_t *message, size_t length, uint8_t *digest);
void portable_sha256(const uint8_t *message, size_t length, uint8_t *digest);

struct candidate {
    const char *name;
    void (*hash)(const uint8_t *message, size_t length, uint8_t *digest);
};

static void die(const char *why)
{
    fprintf(stderr, "bench: %s\n", why);
    exit(1);
}

static void library_sha256(const uint8_t *message, size_t length, uint8_t *digest)
{
    if (mahqurith_sha256(message, length, digest) != 0)
        die("the library refused a message");
}

/* The call that says whether it succeeded has another name in mbedTLS 2. */
#if MBEDTLS_VERSION_MAJOR < 3
#define mbedtls_sha256 mbedtls_sha256_ret
#endif

static void mbedtls_hash(const uint8_t *message, size_t length, uint8_t *digest)
{
    if (mbedtls_sha256(message, length, digest, 0) != 0)
        die("mbedTLS failed");
}

static void sodium_hash(const uint8_t *message, size_t length, uint8_t *digest)
{
    if (crypto_hash_sha256(digest, message, length) != 0)
        die("libsodium failed");
}

static void nettle_hash(const uint8_t *message, size_t length, uint8_t *digest)
{
    struct sha256_ctx context;
    sha256_init(&context);
    sha256_update(&context, length, message);
    sha256_digest(&context, DIGEST, digest);
}

/* OpenSSL's deprecated calls, as on a short message they are faster than EVP. */
static void openssl_sha256(const uint8_t *message, size_t length, uint8_t *digest)
{
    SHA256_CTX context;
    if (!SHA256_Init(&context) || !SHA256_Update(&context, message, length) || !SHA256_Final(digest, &context))
        die("OpenSSL failed");
}

/* Whether OpenSSL and nettle use SHA instructions: OpenSSL's second capability word is CPUID leaf 7, masked; bit 29 of it stands for them. bench/run masks both or none. */
static int with_sha_instructions(void)
{
    unsigned long long leaf7;
    const char *settings = OPENSSL_info(OPENSSL_INFO_CPU_SETTINGS);
    if (settings == NULL || sscanf(settings, "OPENSSL_ia32cap=%*x:%llx", &leaf7) != 1)
        die("OpenSSL does not say which instructions it uses");
    return leaf7 >> 29 & 1;
}

static void fill(uint8_t *message, size_t length)
{
    uint32_t x = 1;
    for (size_t i = 0; i < length; i++) {
        x = x * 1664525 + 1013904223;
        message[i] = (uint8_t)(x >> 24);
    }
}

static void compare_digests(const struct candidate *candidates, size_t count, const uint8_t *message, size_t length)
{
    uint8_t first[DIGEST], other[DIGEST];
    candidates[0].hash(message, length, first);
    for (size_t i = 1; i < count; i++) {
        candidates[i].hash(message, length, other);
        if (memcmp(first, other, DIGEST) != 0) {
            fprintf(stderr, "bench: %s and %s differ at length %zu\n", candidates[0].name, candidates[i].name, length);
            exit(1);
        }
    }
}

/* Processor time, so that other work on the machine is not counted. */
static double seconds(void)
{
    struct timespec now;
    clock_gettime(CLOCK_THREAD_CPUTIME_ID, &now);
    return (double)now.tv_sec + 1e-9 * (double)now.tv_nsec;
}

static double speed(struct candidate candidate, const uint8_t *message, size_t length)
{
    uint8_t digest[DIGEST];
    double start = seconds();
    for (size_t done = 0; done < MEASURED_BYTES; done += length)
        candidate.hash(message, length, digest);
    return MEASURED_BYTES / (seconds() - start) / 1e6;
}

int main(void)
{
    static uint8_t message[LONGEST];
    fill(message, LONGEST);
    int sha = with_sha_instructions();
    const struct candidate candidates[] = {
        {"library", library_sha256},
        {"portable", portable_sha256},
        {"mbedtls", mbedtls_hash},
        {"sodium", sodium_hash},
        {sha ? "nettle-sha" : "nettle-plain", nettle_hash},
        {sha ? "openssl-sha" : "openssl-plain", openssl_sha256},
    };
    size_t count = sizeof candidates / sizeof *candidates;

    for (size_t l = 0; l < sizeof lengths / sizeof *lengths; l++) {
        compare_digests(candidates, count, message, lengths[l]);
        for (int round = 0; round < ROUNDS; round++)
            for (size_t i = 0; i < count; i++)
                printf("%s %zu %.1f\n", candidates[i].name, lengths[l], speed(candidates[i], message, lengths[l]));
    }
    return 0;
}
