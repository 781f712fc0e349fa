/* Compares the proved AES-128 with plain C: first the results, on many keys and blocks, then the speed. */
#include <stdint.h>
#include <stdio.h>
#include <string.h>
#include <time.h>

typedef void block_fn(const uint8_t *, uint8_t *);
typedef void many_fn(const uint8_t *, uint8_t *, uint64_t);

void peer_aes_tables(void);
block_fn rattle_aes_block, peer_aes_block;
many_fn rattle_aes_chain, peer_aes_chain, rattle_aes_counter, peer_aes_counter, rattle_aes_pair, peer_aes_pair;

static uint64_t seed = 0x9e3779b97f4a7c15;
static uint8_t random_octet(void) {
    seed ^= seed << 13;
    seed ^= seed >> 7;
    seed ^= seed << 17;
    return (uint8_t)(seed >> 24);
}
static void random_octets(uint8_t *p) { for (int i = 0; i < 16; i++) p[i] = random_octet(); }

static double now(void) {
    struct timespec t;
    clock_gettime(CLOCK_PROCESS_CPUTIME_ID, &t);
    return (double)t.tv_sec + (double)t.tv_nsec * 1e-9;
}

static int differ(const char *name) { printf("%s: DIFFER\n", name); return 1; }

/* One run in MB/s. */
static double speed(many_fn *f, const uint8_t *key, uint8_t *block, uint64_t n) {
    double t = now();
    f(key, block, n);
    return 16e-6 * (double)n / (now() - t);
}

static int compare(const char *name, many_fn *ours, many_fn *theirs) {
    uint8_t key[16], a[16], b[16];
    for (uint64_t i = 0; i < 1000; i++) {
        random_octets(key);
        random_octets(a);
        memcpy(b, a, 16);
        ours(key, a, i % 37);
        theirs(key, b, i % 37);
        if (memcmp(a, b, 16) != 0) return differ(name);
    }
    /* short runs in turn and the best of each, so that other work on the machine disturbs both alike */
    double r = 0, c = 0;
    for (int run = 0; run < 200; run++) {
        double x = speed(ours, key, a, 50000), y = speed(theirs, key, b, 50000);
        if (x > r) r = x;
        if (y > c) c = y;
    }
    printf("%-12s rattle %6.1f MB/s   C %6.1f MB/s   ratio %.2f\n", name, r, c, r / c);
    return memcmp(a, b, 16) != 0 ? differ(name) : 0;
}

int main(void) {
    uint8_t key[16], a[16], b[16];
    peer_aes_tables();
    for (int i = 0; i < 100000; i++) {
        random_octets(key);
        random_octets(a);
        memcpy(b, a, 16);
        rattle_aes_block(key, a);
        peer_aes_block(key, b);
        if (memcmp(a, b, 16) != 0) return differ("block");
    }
    printf("100000 random keys and blocks: equal\n");
    return compare("aes chain", rattle_aes_chain, peer_aes_chain) | compare("aes counter", rattle_aes_counter, peer_aes_counter)
        | compare("aes pair", rattle_aes_pair, peer_aes_pair);
}
