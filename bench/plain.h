// SHA-256 and HMAC-SHA-256 in plain C, which ours is measured against.
#ifndef PLAIN_H
#define PLAIN_H

#include <stddef.h>
#include <stdint.h>

void plain_sha256(const uint8_t *message, size_t length, uint8_t digest[32]);

void plain_hmac(const uint8_t *key, size_t key_length, const uint8_t *text,
                size_t text_length, uint8_t tag[32]);

#endif
