/* The proved archive's hashes against libxxhash: every length to 5,000, then lengths to 1 MiB around blocks and
   stripes, at eight alignments; of one slice, and of a key and a value at eight cuts. */
#include "bytes.h"

enum { EVERY = 5000, LONGEST = 1 << 20 };

/* the low half; the high one is written */
uint64_t pd_hash(const uint8_t *bytes, size_t len, uint64_t *high);
uint64_t pd_hash_joined(const uint8_t *key, size_t key_len, const uint8_t *value, size_t value_len, uint64_t *high);

static unsigned long compared;
static uint8_t value[LONGEST];

static void same(const char *call, size_t len, size_t cut, XXH128_hash_t sum, uint64_t low, uint64_t high) {
    compared++;
    if (low == sum.low64 && high == sum.high64) return;
    printf("%s of %zu bytes, cut at %zu: libxxhash %016" PRIx64 " %016" PRIx64 ", the archive %016" PRIx64 " %016" PRIx64
           " (low, high)\n",
           call, len, cut, sum.low64, sum.high64, low, high);
    exit(1);
}

static void check(const uint8_t *bytes, size_t len) {
    uint64_t high = 0;
    XXH128_hash_t sum = XXH3_128bits(bytes, len);
    uint64_t low = pd_hash(bytes, len, &high);
    same("pd_hash", len, len, sum, low, high);
    const size_t cuts[] = {0, 1, 20, 63, 64, len / 2, len - 1, len};
    for (size_t k = 0; k < sizeof cuts / sizeof *cuts; k++) {
        if (cuts[k] > len) continue;
        /* the value stands elsewhere, so that no byte behind the key is its first */
        memcpy(value, bytes + cuts[k], len - cuts[k]);
        low = pd_hash_joined(bytes, cuts[k], value, len - cuts[k], &high);
        same("pd_hash_joined", len, cuts[k], sum, low, high);
    }
}

int main(void) {
    uint8_t *bytes = malloc(LONGEST + 64);
    if (!bytes) return 2;
    fill(bytes, LONGEST + 64);
    for (size_t len = 0; len <= EVERY; len++) check(bytes + len % 8, len);
    for (size_t block = EVERY / 1024; block <= LONGEST / 1024; block += 1 + block / 16) {
        static const int near[] = {-65, -64, -63, -1, 0, 1, 63, 64, 65, 240, 511, 512};
        for (size_t k = 0; k < sizeof near / sizeof *near; k++) {
            size_t len = block * 1024 + near[k];
            if (len <= LONGEST) check(bytes + k % 8, len);
        }
    }
    for (size_t align = 0; align < 8; align++) check(bytes + align, LONGEST);
    printf("%lu hashes of the proved archive, to 1 MiB, agree with libxxhash\n", compared);
    return 0;
}
