/* Blocks of AES-128 in plain C: one, chained, under a counter, and both. */
#include "aes128.h"

void peer_aes_tables(void) { aes_tables(); }

void peer_aes_block(const uint8_t key[16], uint8_t out[16]) {
    uint32_t k[44];
    expand(k, key);
    store(out, encrypt(k, load(out)));
}

void peer_aes_chain(const uint8_t key[16], uint8_t out[16], uint64_t n) {
    uint32_t k[44];
    expand(k, key);
    block s = load(out);
    while (n--) s = encrypt(k, s);
    store(out, s);
}

/* The next counter, of 128 bits. */
static void count(uint64_t counter[2]) {
    if (++counter[0] == 0) counter[1]++;
}

void peer_aes_counter(const uint8_t key[16], uint8_t out[16], uint64_t n) {
    uint32_t k[44];
    uint64_t counter[2];
    expand(k, key);
    memcpy(counter, out, 16);
    block total = load(out);
    for (; n > 0; n--, count(counter)) total = sum(total, encrypt(k, load((uint8_t *)counter)));
    store(out, total);
}

void peer_aes_pair(const uint8_t key[16], uint8_t out[16], uint64_t n) {
    uint32_t k[44];
    uint64_t counter[2];
    expand(k, key);
    memcpy(counter, out, 16);
    block start = load(out), chained = start, total = start;
    for (n /= 2; n > 0; n--, count(counter)) {
        chained = sum(encrypt(k, chained), start);
        total = sum(total, encrypt(k, load((uint8_t *)counter)));
    }
    store(out, sum(chained, total));
}
