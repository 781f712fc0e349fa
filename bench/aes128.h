/* AES-128 in plain C as the proved code goes: four tables of 256 words, words throughout, the S-box for the last round.
   Each peer that includes this has its own tables, so that the compiler sees all of it. */
#include <stdint.h>
#include <string.h>

static uint8_t S[256];
static uint32_t T[4][256];

static uint8_t twice(uint8_t a) { return (uint8_t)(a << 1 ^ (a >> 7) * 0x1b); }
static uint32_t turned(uint32_t w, int k) { return w << k | w >> (32 - k); }

/* The tables, from the powers of 3, which run through all octets but 0. */
static void aes_tables(void) {
    uint8_t power[256], place[256] = {0};
    uint8_t a = 1;
    for (int i = 0; i < 255; i++) { power[i] = a; place[a] = (uint8_t)i; a ^= twice(a); }
    for (int n = 0; n < 256; n++) {
        uint8_t v = n == 0 ? 0 : power[(255 - place[n]) % 255];
        uint8_t s = v;
        for (int k = 1; k < 5; k++) s ^= (uint8_t)(v << k | v >> (8 - k));
        s ^= 0x63;
        S[n] = s;
        uint32_t w = twice(s) | (uint32_t)s << 8 | (uint32_t)s << 16 | (uint32_t)(uint8_t)(twice(s) ^ s) << 24;
        T[0][n] = w;
        T[1][n] = turned(w, 8);
        T[2][n] = turned(w, 16);
        T[3][n] = turned(w, 24);
    }
}

static void expand(uint32_t k[44], const uint8_t key[16]) {
    memcpy(k, key, 16);
    uint8_t x = 1;
    for (int i = 4; i < 44; i += 4) {
        uint32_t d = k[i - 1];
        uint32_t t = S[d >> 8 & 255] | (uint32_t)S[d >> 16 & 255] << 8 | (uint32_t)S[d >> 24] << 16 | (uint32_t)S[d & 255] << 24;
        k[i] = k[i - 4] ^ t ^ x;
        k[i + 1] = k[i - 3] ^ k[i];
        k[i + 2] = k[i - 2] ^ k[i + 1];
        k[i + 3] = k[i - 1] ^ k[i + 2];
        x = twice(x);
    }
}

#define COLUMN(a, b, c, d, k) (T[0][(a) & 255] ^ T[1][(b) >> 8 & 255] ^ T[2][(c) >> 16 & 255] ^ T[3][(d) >> 24] ^ (k))
#define LAST(a, b, c, d, k) ((S[(a) & 255] | (uint32_t)S[(b) >> 8 & 255] << 8 | (uint32_t)S[(c) >> 16 & 255] << 16 | (uint32_t)S[(d) >> 24] << 24) ^ (k))

typedef struct { uint32_t w[4]; } block;

static block load(const uint8_t *p) { block b; memcpy(&b, p, 16); return b; }
static void store(uint8_t *p, block b) { memcpy(p, &b, 16); }
static block sum(block a, block b) { for (int i = 0; i < 4; i++) a.w[i] ^= b.w[i]; return a; }

static inline block encrypt(const uint32_t k[44], block s) {
    uint32_t a = s.w[0] ^ k[0], b = s.w[1] ^ k[1], c = s.w[2] ^ k[2], d = s.w[3] ^ k[3];
    for (int r = 4; r < 40; r += 4) {
        uint32_t e = COLUMN(a, b, c, d, k[r]);
        uint32_t f = COLUMN(b, c, d, a, k[r + 1]);
        uint32_t g = COLUMN(c, d, a, b, k[r + 2]);
        uint32_t h = COLUMN(d, a, b, c, k[r + 3]);
        a = e; b = f; c = g; d = h;
    }
    block out = {{LAST(a, b, c, d, k[40]), LAST(b, c, d, a, k[41]), LAST(c, d, a, b, k[42]), LAST(d, a, b, c, k[43])}};
    return out;
}
