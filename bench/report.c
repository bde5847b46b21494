/* report N KEYS: the hashing that N receipts of the morning report cannot do without, in seconds of processor time: the check of each block, nine
 * compressions, and a digest of its rack. */
#include "mahqurith.h"
#include <stdio.h>
#include <stdlib.h>
#include <time.h>

int main(int argc, char **argv)
{
    static uint8_t block[508], rack[1 + 1 + 15 * 32];
    uint8_t digest[MAHQURITH_DIGEST];
    if (argc != 3)
        return 2;
    const long blocks = atol(argv[1]);
    const size_t size = 2 + 32 * (size_t)atol(argv[2]);
    if (size > sizeof rack)
        return 2;
    const clock_t start = clock();
    for (long i = 0; i < blocks; i++) {
        block[0] = (uint8_t)i;
        if (mahqurith_sha256(block, sizeof block, digest) || mahqurith_sha256(rack, size, digest))
            return 1;
        rack[0] = digest[0];
    }
    printf("%.6f\n", (double)(clock() - start) / CLOCKS_PER_SEC);
    return 0;
}
