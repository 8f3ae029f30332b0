// SHA-256 of FIPS 180-4 and HMAC of RFC 2104, as one would write them in C
// from the standards: one loop for the schedule, one for the rounds, and whole
// blocks taken from the message where they lie.
#include "plain.h"

#include <string.h>

typedef struct {
    uint32_t state[8];
    uint8_t partial[64];
    uint64_t length;
} hasher;

static const uint32_t initial[8] = {
    0x6a09e667, 0xbb67ae85, 0x3c6ef372, 0xa54ff53a,
    0x510e527f, 0x9b05688c, 0x1f83d9ab, 0x5be0cd19,
};

static const uint32_t constants[64] = {
    0x428a2f98, 0x71374491, 0xb5c0fbcf, 0xe9b5dba5, 0x3956c25b, 0x59f111f1,
    0x923f82a4, 0xab1c5ed5, 0xd807aa98, 0x12835b01, 0x243185be, 0x550c7dc3,
    0x72be5d74, 0x80deb1fe, 0x9bdc06a7, 0xc19bf174, 0xe49b69c1, 0xefbe4786,
    0x0fc19dc6, 0x240ca1cc, 0x2de92c6f, 0x4a7484aa, 0x5cb0a9dc, 0x76f988da,
    0x983e5152, 0xa831c66d, 0xb00327c8, 0xbf597fc7, 0xc6e00bf3, 0xd5a79147,
    0x06ca6351, 0x14292967, 0x27b70a85, 0x2e1b2138, 0x4d2c6dfc, 0x53380d13,
    0x650a7354, 0x766a0abb, 0x81c2c92e, 0x92722c85, 0xa2bfe8a1, 0xa81a664b,
    0xc24b8b70, 0xc76c51a3, 0xd192e819, 0xd6990624, 0xf40e3585, 0x106aa070,
    0x19a4c116, 0x1e376c08, 0x2748774c, 0x34b0bcb5, 0x391c0cb3, 0x4ed8aa4a,
    0x5b9cca4f, 0x682e6ff3, 0x748f82ee, 0x78a5636f, 0x84c87814, 0x8cc70208,
    0x90befffa, 0xa4506ceb, 0xbef9a3f7, 0xc67178f2,
};

static uint32_t rotr(uint32_t x, int n) { return x >> n | x << (32 - n); }

static uint32_t choose(uint32_t x, uint32_t y, uint32_t z) {
    return (x & y) ^ (~x & z);
}

static uint32_t majority(uint32_t x, uint32_t y, uint32_t z) {
    return (x & y) ^ (x & z) ^ (y & z);
}

static uint32_t big_sigma0(uint32_t x) {
    return rotr(x, 2) ^ rotr(x, 13) ^ rotr(x, 22);
}

static uint32_t big_sigma1(uint32_t x) {
    return rotr(x, 6) ^ rotr(x, 11) ^ rotr(x, 25);
}

static uint32_t small_sigma0(uint32_t x) {
    return rotr(x, 7) ^ rotr(x, 18) ^ (x >> 3);
}

static uint32_t small_sigma1(uint32_t x) {
    return rotr(x, 17) ^ rotr(x, 19) ^ (x >> 10);
}

static void schedule(uint32_t w[64], const uint8_t block[64]) {
    for (int t = 0; t < 16; t++) {
        const uint8_t *p = block + 4 * t;
        w[t] = (uint32_t)p[0] << 24 | (uint32_t)p[1] << 16 |
               (uint32_t)p[2] << 8 | (uint32_t)p[3];
    }
    for (int t = 16; t < 64; t++) {
        w[t] = small_sigma1(w[t - 2]) + w[t - 7] + small_sigma0(w[t - 15]) +
               w[t - 16];
    }
}

static void compress(uint32_t state[8], const uint8_t block[64]) {
    uint32_t w[64];
    schedule(w, block);
    uint32_t a = state[0], b = state[1], c = state[2], d = state[3];
    uint32_t e = state[4], f = state[5], g = state[6], h = state[7];
    for (int t = 0; t < 64; t++) {
        uint32_t t1 = h + big_sigma1(e) + choose(e, f, g) + constants[t] + w[t];
        uint32_t t2 = big_sigma0(a) + majority(a, b, c);
        h = g;
        g = f;
        f = e;
        e = d + t1;
        d = c;
        c = b;
        b = a;
        a = t1 + t2;
    }
    state[0] += a;
    state[1] += b;
    state[2] += c;
    state[3] += d;
    state[4] += e;
    state[5] += f;
    state[6] += g;
    state[7] += h;
}

static void start(hasher *it) {
    memcpy(it->state, initial, sizeof initial);
    it->length = 0;
}

static void update(hasher *it, const uint8_t *more, size_t count) {
    size_t held = it->length % 64;
    it->length += count;
    if (held > 0) {
        size_t room = 64 - held;
        if (count < room) {
            memcpy(it->partial + held, more, count);
            return;
        }
        memcpy(it->partial + held, more, room);
        compress(it->state, it->partial);
        more += room;
        count -= room;
    }
    while (count >= 64) {
        compress(it->state, more);
        more += 64;
        count -= 64;
    }
    memcpy(it->partial, more, count);
}

static void finish(hasher *it, uint8_t digest[32]) {
    size_t held = it->length % 64;
    uint64_t bits = it->length * 8;
    it->partial[held++] = 0x80;
    if (held > 56) {
        memset(it->partial + held, 0, 64 - held);
        compress(it->state, it->partial);
        held = 0;
    }
    memset(it->partial + held, 0, 56 - held);
    for (int i = 0; i < 8; i++) {
        it->partial[56 + i] = (uint8_t)(bits >> (56 - 8 * i));
    }
    compress(it->state, it->partial);
    for (int i = 0; i < 32; i++) {
        digest[i] = (uint8_t)(it->state[i / 4] >> (24 - 8 * (i % 4)));
    }
}

void plain_sha256(const uint8_t *message, size_t length, uint8_t digest[32]) {
    hasher it;
    start(&it);
    update(&it, message, length);
    finish(&it, digest);
}

// The digest of the key's block, masked, and a text after it.
static void masked_digest(const uint8_t block[64], uint8_t mask,
                          const uint8_t *text, size_t length,
                          uint8_t digest[32]) {
    uint8_t pad[64];
    for (int i = 0; i < 64; i++) {
        pad[i] = block[i] ^ mask;
    }
    hasher it;
    start(&it);
    update(&it, pad, sizeof pad);
    update(&it, text, length);
    finish(&it, digest);
}

void plain_hmac(const uint8_t *key, size_t key_length, const uint8_t *text,
                size_t text_length, uint8_t tag[32]) {
    uint8_t block[64] = {0};
    if (key_length > 64) {
        plain_sha256(key, key_length, block);
    } else {
        memcpy(block, key, key_length);
    }
    uint8_t within[32];
    masked_digest(block, 0x36, text, text_length, within);
    masked_digest(block, 0x5c, within, sizeof within, tag);
}
