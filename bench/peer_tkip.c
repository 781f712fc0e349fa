#include "peer_tkip.h"
#include "peer_streams.h"
#include <string.h>

static uint16_t table[256];

static uint8_t times(uint8_t a, uint8_t b)
{
    uint8_t p = 0;
    for (; b; b >>= 1, a = (uint8_t)(a << 1 ^ (a & 0x80 ? 0x1b : 0)))
        if (b & 1)
            p ^= a;
    return p;
}

void c_tkip_begin(void)
{
    for (int n = 0; n < 256; n++) {
        uint8_t inverse = 0;
        for (int m = 1; m < 256 && n; m++)
            if (times((uint8_t)n, (uint8_t)m) == 1)
                inverse = (uint8_t)m;
        uint8_t s = 0x63;
        for (int k = 0; k < 5; k++)
            s ^= (uint8_t)(inverse << k | inverse >> (8 - k));
        table[n] = (uint16_t)(times(s, 2) << 8 | times(s, 3));
    }
}

static uint16_t substituted(uint16_t w)
{
    uint16_t high = table[w >> 8];
    return table[w & 0xff] ^ (uint16_t)(high << 8 | high >> 8);
}

static uint16_t word(const uint8_t *octets, int n) { return (uint16_t)(octets[2 * n] | octets[2 * n + 1] << 8); }

static uint16_t turned(uint16_t w) { return (uint16_t)(w >> 1 | w << 15); }

static void rc4_key(const uint8_t *key, const uint8_t *transmitter, uint64_t counter, uint8_t *out)
{
    uint16_t p[6] = {(uint16_t)(counter >> 16), (uint16_t)(counter >> 32), word(transmitter, 0), word(transmitter, 1), word(transmitter, 2), 0};
    for (int i = 0; i < 8; i++) {
        int j = i & 1;
        p[0] += substituted(p[4] ^ word(key, j));
        p[1] += substituted(p[0] ^ word(key, 2 + j));
        p[2] += substituted(p[1] ^ word(key, 4 + j));
        p[3] += substituted(p[2] ^ word(key, 6 + j));
        p[4] += substituted(p[3] ^ word(key, j));
        p[4] += (uint16_t)i;
    }
    p[5] = (uint16_t)(p[4] + (uint16_t)counter);
    for (int i = 0; i < 6; i++)
        p[i] += substituted(p[(i + 5) % 6] ^ word(key, i));
    p[0] += turned(p[5] ^ word(key, 6));
    p[1] += turned(p[0] ^ word(key, 7));
    for (int i = 2; i < 6; i++)
        p[i] += turned(p[i - 1]);
    out[0] = (uint8_t)(counter >> 8);
    out[1] = (out[0] | 0x20) & 0x7f;
    out[2] = (uint8_t)counter;
    out[3] = (uint8_t)((p[5] ^ word(key, 0)) >> 1);
    for (int i = 0; i < 6; i++) {
        out[4 + 2 * i] = (uint8_t)p[i];
        out[5 + 2 * i] = (uint8_t)(p[i] >> 8);
    }
}

void c_tkip_seal(const uint8_t *key, const uint8_t *header, uint64_t counter, const uint8_t *piece, size_t n, uint8_t *out)
{
    uint8_t mixed[16];
    uint32_t check = c_crc32(piece, n);
    rc4_key(key, header + 10, counter, mixed);
    memcpy(out, mixed, 3);
    out[3] = 0x20;
    for (int k = 0; k < 4; k++)
        out[4 + k] = (uint8_t)(counter >> (16 + 8 * k));
    memcpy(out + 8, piece, n);
    memcpy(out + 8 + n, &check, 4);
    c_rc4_words(mixed, 16, out + 8, n + 4);
}

size_t c_tkip_open(const uint8_t *key, const uint8_t *header, const uint8_t *body, size_t n, uint8_t *out)
{
    uint8_t mixed[16], inner[2316];
    uint64_t counter = body[2] | (uint64_t)body[0] << 8;
    for (int k = 0; k < 4; k++)
        counter |= (uint64_t)body[4 + k] << (16 + 8 * k);
    rc4_key(key, header + 10, counter, mixed);
    memcpy(inner, body + 8, n - 8);
    c_rc4_words(mixed, 16, inner, n - 8);
    uint32_t check = c_crc32(inner, n - 12), given;
    memcpy(&given, inner + n - 12, 4);
    if (check != given)
        return 0;
    memcpy(out, inner, n - 12);
    return n - 12;
}

static uint32_t rotated(uint32_t x, int k) { return x << k | x >> (32 - k); }

typedef struct {
    uint32_t l, r;
} Words;

static Words take(Words s, uint32_t w)
{
    s.l ^= w;
    s.r ^= rotated(s.l, 17);
    s.l += s.r;
    s.r ^= (s.l & 0xff00ff00) >> 8 | (s.l & 0x00ff00ff) << 8;
    s.l += s.r;
    s.r ^= rotated(s.l, 3);
    s.l += s.r;
    s.r ^= rotated(s.l, 30);
    s.l += s.r;
    return s;
}

static uint32_t four(const uint8_t *octets)
{
    uint32_t w;
    memcpy(&w, octets, 4);
    return w;
}

void c_michael(const uint8_t *key, const uint8_t *destination, const uint8_t *source, const uint8_t *message, size_t n, uint8_t *code)
{
    uint8_t heading[16] = {0}, last[8] = {0};
    Words s = {four(key), four(key + 4)};
    memcpy(heading, destination, 6);
    memcpy(heading + 6, source, 6);
    for (int k = 0; k < 16; k += 4)
        s = take(s, four(heading + k));
    for (; n >= 4; n -= 4, message += 4)
        s = take(s, four(message));
    memcpy(last, message, n);
    last[n] = 0x5a;
    s = take(s, four(last));
    s = take(s, four(last + 4));
    memcpy(code, &s, 8);
}
