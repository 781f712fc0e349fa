/* Compares the proved CCMP with plain C: first the results, on many keys, headers, pieces and bodies, then the speed. */
#include <stddef.h>
#include <stdint.h>
#include <stdio.h>
#include <string.h>
#include <time.h>

void peer_ccmp_tables(void);
void peer_ccmp_seal(const uint8_t *, const uint8_t *, uint8_t, uint64_t, const uint8_t *, size_t, uint8_t *);
uint64_t peer_ccmp_open(const uint8_t *, const uint8_t *, const uint8_t *, size_t, uint8_t *);
uint8_t rattle_ccmp_seal(const uint8_t *, const uint8_t *, uint8_t, uint64_t, const uint8_t *, size_t, uint8_t *, size_t);
uint64_t rattle_ccmp_open(const uint8_t *, const uint8_t *, const uint8_t *, size_t, uint8_t *, size_t);

enum { MOST = 2400 };
static uint8_t key[16], header[24], piece[MOST], body[MOST], other[MOST], out[MOST], theirs[MOST];

static uint64_t seed = 0x9e3779b97f4a7c15;
static uint64_t number(void) {
    seed ^= seed << 13;
    seed ^= seed >> 7;
    seed ^= seed << 17;
    return seed >> 12;
}
static void random_octets(uint8_t *p, size_t n) { for (size_t i = 0; i < n; i++) p[i] = (uint8_t)number(); }

static double now(void) {
    struct timespec t;
    clock_gettime(CLOCK_PROCESS_CPUTIME_ID, &t);
    return (double)t.tv_sec + (double)t.tv_nsec * 1e-9;
}

static int differ(const char *name, size_t n) { printf("%s of %zu octets: DIFFER\n", name, n); return 1; }

/* Opens the body by both, into memories that hold the same, and compares answers and memories. */
static int opens(const char *name, size_t n, uint64_t want) {
    random_octets(out, MOST);
    memcpy(theirs, out, MOST);
    uint64_t a = rattle_ccmp_open(key, header, body, n, out, MOST);
    uint64_t b = peer_ccmp_open(key, header, body, n, theirs);
    if (a != b || memcmp(out, theirs, MOST) != 0) return differ(name, n);
    return want != 0 && a != want ? differ(name, n) : 0;
}

static int equal(size_t n) {
    random_octets(key, 16);
    random_octets(header, 24);
    random_octets(piece, n);
    uint64_t counter = number() & 0xffffffffffff;
    uint8_t id = number() & 3;
    random_octets(body, MOST);
    memcpy(other, body, MOST);
    if (rattle_ccmp_seal(key, header, id, counter, piece, n, body, MOST)) return differ("seal", n);
    peer_ccmp_seal(key, header, id, counter, piece, n, other);
    if (memcmp(body, other, MOST) != 0) return differ("seal", n);
    if (opens("open", n + 16, n) || memcmp(out, piece, n) != 0) return differ("open", n);
    size_t bit = number() % (8 * (n + 8));
    body[8 + bit / 8] ^= (uint8_t)(1 << bit % 8);
    if (opens("one bit turned", n + 16, 10004)) return 1;
    body[8 + bit / 8] ^= (uint8_t)(1 << bit % 8);
    bit = number() % 64;
    body[bit / 8] ^= (uint8_t)(1 << bit % 8);
    return opens("head turned", n + 16, 0);
}

/* One run in MB/s. */
static double speed(int ours, int opening, size_t n, int count) {
    uint64_t right = 0;
    double t = now();
    for (int i = 0; i < count; i++) {
        if (ours && opening) right += rattle_ccmp_open(key, header, body, n + 16, out, MOST);
        if (!ours && opening) right += peer_ccmp_open(key, header, body, n + 16, out);
        if (ours && !opening) right += n + rattle_ccmp_seal(key, header, 0, 77, piece, n, other, MOST);
        if (!ours && !opening) { peer_ccmp_seal(key, header, 0, 77, piece, n, other); right += n; }
    }
    t = now() - t;
    return right == n * (uint64_t)count ? 1e-6 * (double)n * count / t : 0;
}

static void compare(int opening, size_t n) {
    /* short runs in turn and the best of each, so that other work on the machine disturbs both alike */
    double r = 0, c = 0;
    int count = (int)(400000 / n);
    rattle_ccmp_seal(key, header, 0, 77, piece, n, body, MOST);
    for (int run = 0; run < 150; run++) {
        double x = speed(1, opening, n, count), y = speed(0, opening, n, count);
        if (x > r) r = x;
        if (y > c) c = y;
    }
    printf("ccmp %s %4zu  rattle %6.1f MB/s   C %6.1f MB/s   ratio %.2f\n", opening ? "open" : "seal", n, r, c, r / c);
}

int main(void) {
    int cases = 0;
    peer_ccmp_tables();
    for (size_t n = 1; n <= 2312; n++)
        for (int i = 0; i < (n < 100 ? 50 : 4); i++, cases++)
            if (equal(n)) return 1;
    for (size_t n = 0; n <= MOST; n++) {
        random_octets(body, MOST);
        body[3] |= 32;
        if (n <= 16 ? opens("short", n, 10001) : n > 2328 ? opens("long", n, 10003) : opens("random", n, 0)) return 1;
    }
    printf("%d random pieces sealed and opened, with a bit turned and with a turned head, and %d bodies: equal\n", cases, MOST + 1);
    size_t sizes[] = {64, 384, 2304};
    for (int i = 0; i < 3; i++) { compare(0, sizes[i]); compare(1, sizes[i]); }
    return 0;
}
