/* lengths input: batches of h and H records over every length to 5,000, in the calls format.
   lengths lines: the lines that libxxhash answers to them. */
#include "bytes.h"

enum { LONGEST = 5000, EVERY_CUT = 300, BATCH = 65536 };

static uint8_t source[LONGEST];
static uint8_t batch[BATCH];
static size_t filled;
static int lines;
static unsigned long records;

static void flush_batch(void) {
    uint64_t len = filled;
    if (filled == 0) return;
    fwrite(&len, 8, 1, stdout); /* little-endian, as this machine is */
    fwrite(batch, 1, filled, stdout);
    filled = 0;
}

static void put(const void *bytes, size_t len) {
    memcpy(batch + filled, bytes, len);
    filled += len;
}

static void put_bytes(const uint8_t *bytes, uint64_t len) {
    put(&len, 8);
    put(bytes, len);
}

static void answer(size_t len) {
    XXH128_hash_t sum = XXH3_128bits(source, len);
    printf("hash %" PRIu64 " %" PRIu64 "\n", sum.low64, sum.high64);
}

static void one(size_t len) {
    records++;
    if (lines) {
        answer(len);
        return;
    }
    if (filled + 9 + len > BATCH) flush_batch();
    put("h", 1);
    put_bytes(source, len);
}

static void joined(size_t len, size_t cut) {
    records++;
    if (lines) {
        answer(len);
        return;
    }
    if (filled + 17 + len > BATCH) flush_batch();
    put("H", 1);
    put_bytes(source, cut);
    put_bytes(source + cut, len - cut);
}

int main(int count, char **words) {
    lines = count > 1 && strcmp(words[1], "lines") == 0;
    fill(source, LONGEST);
    for (size_t len = 0; len <= LONGEST; len++) {
        one(len);
        if (len <= EVERY_CUT) {
            for (size_t cut = 0; cut <= len; cut++) joined(len, cut);
        } else {
            joined(len, len / 2);
            joined(len, len * 7919 % (len + 1));
            joined(len, 1 + len * 104729 % 1023 % (len - 1));
        }
    }
    flush_batch();
    fprintf(stderr, "%lu hashes\n", records);
    return 0;
}
