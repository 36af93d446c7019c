/* vectors: the published list of XXH3-128 sums, seed 0, as libxxhash derives it. A line for each length to 4,160: length, low half, high half.
   The input is that of xxHash's own sanity test: each byte is the top byte of a number that a 64-bit prime multiplies after it, from a 32-bit prime on. */
#include <inttypes.h>
#include <stddef.h>
#include <stdint.h>
#include <stdio.h>
#include <xxhash.h>

enum { LONGEST = 4160 };

int main(void) {
    static uint8_t source[LONGEST];
    uint64_t number = 2654435761u;
    for (size_t i = 0; i < LONGEST; i++) {
        source[i] = (uint8_t)(number >> 56);
        number *= 11400714785074694797u;
    }
    for (size_t len = 0; len <= LONGEST; len++) {
        XXH128_hash_t sum = XXH3_128bits(source, len);
        printf("%zu %016" PRIx64 " %016" PRIx64 "\n", len, sum.low64, sum.high64);
    }
    return 0;
}
