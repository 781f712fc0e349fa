/* CCMP in plain C as the proved code goes: the chain and the counter mode in one loop. */
#include "aes128.h"
#include <stddef.h>

void peer_ccmp_tables(void) { aes_tables(); }

/* A block of flags, nonce and a number. */
static block numbered(uint8_t flags, const uint8_t nonce[13], unsigned n) {
    uint8_t b[16];
    b[0] = flags;
    memcpy(b + 1, nonce, 13);
    b[14] = (uint8_t)(n >> 8);
    b[15] = (uint8_t)n;
    return load(b);
}

static block part(const uint8_t *p, size_t n) { uint8_t b[16] = {0}; memcpy(b, p, n); return load(b); }

/* The text under the key stream, and the tail of the message, which is the text or what came out. */
static void run(const uint8_t key[16], const uint8_t header[24], uint64_t counter, const uint8_t *text, size_t n, uint8_t *out, int opening, uint8_t tail[16]) {
    uint32_t k[44];
    uint8_t nonce[13] = {0}, more[32] = {0, 22};
    expand(k, key);
    memcpy(nonce + 1, header + 10, 6);
    for (int i = 0; i < 6; i++) nonce[7 + i] = (uint8_t)(counter >> (8 * (5 - i)));
    more[2] = header[0] & 0x8f;
    more[3] = (uint8_t)((header[1] & 0xc7) | 0x40);
    memcpy(more + 4, header + 4, 18);
    more[22] = header[22] & 15;
    block mac = encrypt(k, numbered(0x59, nonce, (unsigned)n));
    mac = encrypt(k, sum(mac, load(more)));
    mac = encrypt(k, sum(mac, load(more + 16)));
    block counted = numbered(1, nonce, 0);
    size_t i;
    for (i = 0; i < n / 16; i++) {
        uint32_t c = (uint32_t)(i + 1);
        counted.w[3] = (counted.w[3] & 0xffff) | (c >> 8 & 255) << 16 | (c & 255) << 24;
        block b = load(text + 16 * i);
        block x = sum(b, encrypt(k, counted));
        store(out + 16 * i, x);
        mac = encrypt(k, sum(mac, opening ? x : b));
    }
    if (16 * i < n) {
        block b = part(text + 16 * i, n - 16 * i);
        uint8_t x[16];
        store(x, sum(b, encrypt(k, numbered(1, nonce, (unsigned)(i + 1)))));
        memcpy(out + 16 * i, x, n - 16 * i);
        mac = encrypt(k, sum(mac, opening ? part(x, n - 16 * i) : b));
    }
    store(tail, sum(mac, encrypt(k, numbered(1, nonce, 0))));
}

void peer_ccmp_seal(const uint8_t key[16], const uint8_t header[24], uint8_t id, uint64_t counter, const uint8_t *piece, size_t n, uint8_t *out) {
    uint8_t head[8] = {(uint8_t)counter, (uint8_t)(counter >> 8), 0, (uint8_t)(id * 64 + 32), (uint8_t)(counter >> 16), (uint8_t)(counter >> 24), (uint8_t)(counter >> 32), (uint8_t)(counter >> 40)};
    uint8_t tail[16];
    memcpy(out, head, 8);
    run(key, header, counter, piece, n, out + 8, 0, tail);
    memcpy(out + 8 + n, tail, 8);
}

/* The length of the piece, or 10001 to 10004. */
uint64_t peer_ccmp_open(const uint8_t key[16], const uint8_t header[24], const uint8_t *body, size_t n, uint8_t *out) {
    if (n < 17) return 10001;
    if (!(body[3] & 32)) return 10002;
    if (n > 2328) return 10003;
    uint64_t counter = body[0] | (uint64_t)body[1] << 8 | (uint64_t)body[4] << 16 | (uint64_t)body[5] << 24 | (uint64_t)body[6] << 32 | (uint64_t)body[7] << 40;
    uint8_t tail[16], differs = 0;
    run(key, header, counter, body + 8, n - 16, out, 1, tail);
    for (int i = 0; i < 8; i++) differs |= tail[i] ^ body[n - 8 + i];
    if (differs) { memset(out, 0, n - 16); return 10004; }
    return n - 16;
}
