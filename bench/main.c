// Hashes the same bytes with the proved library and with plain C, compares
// what they give, and prints how many times as long plain C takes.
#include "plain.h"

#include <stdbool.h>
#include <stdio.h>
#include <stdlib.h>
#include <string.h>
#include <time.h>

// The exports of crates/digest_c: a slice is a pointer and then a length.
bool veerylocker_sha256(const uint8_t *message, size_t length, uint8_t *out,
                        size_t out_length);
bool veerylocker_hmac(const uint8_t *key, size_t key_length,
                      const uint8_t *text, size_t text_length, uint8_t *out,
                      size_t out_length);

enum { REPETITIONS = 15, MESSAGE = 64 << 20, TEXTS = 1000000, TEXT = 44 };

static void ours_sha256(const uint8_t *message, size_t length,
                        uint8_t digest[32]) {
    veerylocker_sha256(message, length, digest, 32);
}

static void ours_hmac(const uint8_t *key, size_t key_length,
                      const uint8_t *text, size_t text_length,
                      uint8_t tag[32]) {
    veerylocker_hmac(key, key_length, text, text_length, tag, 32);
}

typedef void sha256_function(const uint8_t *, size_t, uint8_t[32]);
typedef void hmac_function(const uint8_t *, size_t, const uint8_t *, size_t,
                           uint8_t[32]);

typedef struct {
    const char *name;
    sha256_function *sha256;
    hmac_function *hmac;
    double sha256_seconds, hmac_seconds; // the best so far
    uint8_t digest[32], tag[32];
} contender;

static double processor_seconds(void) {
    struct timespec t;
    clock_gettime(CLOCK_PROCESS_CPUTIME_ID, &t);
    return (double)t.tv_sec + (double)t.tv_nsec * 1e-9;
}

static void keep_least(double *best, double seconds) {
    if (*best == 0 || seconds < *best) {
        *best = seconds;
    }
}

static void time_sha256(contender *it, const uint8_t *message) {
    double before = processor_seconds();
    it->sha256(message, MESSAGE, it->digest);
    keep_least(&it->sha256_seconds, processor_seconds() - before);
}

// Each text holds the tag before it, so that no call can be left out.
static void time_hmac(contender *it, const uint8_t key[32]) {
    uint8_t text[TEXT] = {0}, tag[32] = {0};
    double before = processor_seconds();
    for (uint32_t i = 0; i < TEXTS; i++) {
        memcpy(text, tag, sizeof tag);
        memcpy(text + sizeof tag, &i, sizeof i);
        it->hmac(key, 32, text, sizeof text, tag);
    }
    keep_least(&it->hmac_seconds, processor_seconds() - before);
    memcpy(it->tag, tag, sizeof tag);
}

static void report(const contender *it) {
    printf("%-8s SHA-256 %6.1f MB/s, HMAC %6.1f ns a text\n", it->name,
           MESSAGE / it->sha256_seconds / 1e6, it->hmac_seconds * 1e9 / TEXTS);
}

int main(void) {
    uint8_t *message = malloc(MESSAGE);
    if (message == NULL) {
        fputs("bench: no memory\n", stderr);
        return 1;
    }
    for (uint32_t i = 0; i < MESSAGE; i++) {
        message[i] = (uint8_t)(i * 2654435761u >> 13);
    }
    uint8_t key[32];
    for (int i = 0; i < 32; i++) {
        key[i] = (uint8_t)(7 * i + 1);
    }
    contender ours = {.name = "ours", .sha256 = ours_sha256, .hmac = ours_hmac};
    contender plain = {
        .name = "plain C", .sha256 = plain_sha256, .hmac = plain_hmac};
    for (int i = 0; i < REPETITIONS; i++) {
        time_sha256(&ours, message);
        time_sha256(&plain, message);
        time_hmac(&ours, key);
        time_hmac(&plain, key);
        if (memcmp(ours.digest, plain.digest, 32) != 0 ||
            memcmp(ours.tag, plain.tag, 32) != 0) {
            fputs("bench: the results differ\n", stderr);
            return 1;
        }
    }
    free(message);
    report(&ours);
    report(&plain);
    printf("plain C / ours: SHA-256 %.3f, HMAC %.3f\n",
           plain.sha256_seconds / ours.sha256_seconds,
           plain.hmac_seconds / ours.hmac_seconds);
    return 0;
}
