#include "peer_streams.h"
#include <string.h>

/* Tables of CRC-32 for eight octets at a time: tables[k][n] is n divided with k octets behind it. */
static uint32_t tables[8][256];

__attribute__((constructor)) static void make_tables(void)
{
    for (uint32_t n = 0; n < 256; n++) {
        uint32_t c = n;
        for (int k = 0; k < 8; k++) {
            for (int bit = 0; bit < 8; bit++)
                c = c >> 1 ^ (c & 1 ? 0xEDB88320u : 0);
            tables[k][n] = c;
        }
    }
}

uint32_t c_crc32(const uint8_t *octets, size_t n)
{
    uint32_t c = 0xFFFFFFFFu;
    for (; n >= 8; n -= 8, octets += 8) {
        uint64_t w;
        memcpy(&w, octets, 8);
        w ^= c;
        c = tables[7][w & 255] ^ tables[6][w >> 8 & 255] ^ tables[5][w >> 16 & 255] ^ tables[4][w >> 24 & 255]
            ^ tables[3][w >> 32 & 255] ^ tables[2][w >> 40 & 255] ^ tables[1][w >> 48 & 255] ^ tables[0][w >> 56];
    }
    for (; n > 0; n--, octets++)
        c = tables[0][(c ^ *octets) & 255] ^ c >> 8;
    return ~c;
}

static void schedule(uint8_t *s, const uint8_t *key, size_t key_size)
{
    for (int i = 0; i < 256; i++)
        s[i] = (uint8_t)i;
    uint8_t j = 0;
    size_t k = 0;
    for (int i = 0; i < 256; i++) {
        uint8_t a = s[i];
        j += a + key[k];
        s[i] = s[j];
        s[j] = a;
        if (++k == key_size)
            k = 0;
    }
}

static inline uint8_t step(uint8_t *s, uint8_t *i, uint8_t *j)
{
    uint8_t a = s[++*i];
    uint8_t b = s[*j += a];
    s[*i] = b;
    s[*j] = a;
    return s[(uint8_t)(a + b)];
}

void c_rc4(const uint8_t *key, size_t key_size, uint8_t *octets, size_t n)
{
    uint8_t s[256], i = 0, j = 0;
    schedule(s, key, key_size);
    for (size_t k = 0; k < n; k++)
        octets[k] ^= step(s, &i, &j);
}

void c_rc4_words(const uint8_t *key, size_t key_size, uint8_t *octets, size_t n)
{
    uint8_t s[256], i = 0, j = 0;
    schedule(s, key, key_size);
    for (; n >= 8; n -= 8, octets += 8) {
        uint64_t w, mask = 0;
        for (int k = 0; k < 8; k++)
            mask |= (uint64_t)step(s, &i, &j) << 8 * k;
        memcpy(&w, octets, 8);
        w ^= mask;
        memcpy(octets, &w, 8);
    }
    for (; n > 0; n--, octets++)
        *octets ^= step(s, &i, &j);
}
