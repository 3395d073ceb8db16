/* Bob Jenkins' lookup2 (1996), written plainly, over 50,000,000 bytes: what bench/one hash measures the proved
   program against. The program's one word is a count of rounds; with 0 the bytes are made and not hashed. */
#include "plain.h"

#define BYTES 50000000u

int main(int argc, char **argv)
{
    uint32_t rounds = argc > 1 ? (uint32_t)strtoul(argv[1], NULL, 10) : 1, all = 0;
    uint8_t *bytes = malloc(BYTES);

    if (bytes == NULL)
        return 1;
    fill_bytes(bytes, BYTES);
    /* a byte changes in each round, so that no round's hash is known before it */
    for (uint32_t round = 0; round < rounds; round++) {
        bytes[0] = (uint8_t)(round % 256);
        all = rotate(all, 1) ^ hash(bytes, BYTES);
    }
    printf("%08" PRIx32 " %u\n", all, bytes[BYTES - 1]);
    return 0;
}
