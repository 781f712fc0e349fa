/* Speed of the proved ciphers beside plain C: first that both give the same, then megaoctets a second.
   A new case is a pair of functions over a Job, and a row of `cases`. */
#include "peer_streams.h"
#include <stdio.h>
#include <stdlib.h>
#include <string.h>
#include <time.h>

enum { SIZE = 2304, CALLS = 2000, RUNS = 15, INPUTS = 3000 };

typedef struct {
    uint8_t key[256];
    size_t key_size;
    uint8_t octets[SIZE];
    size_t size;
} Job;

/* Exported by the crate bench. */
uint32_t rattle_crc32(const uint8_t *octets, size_t n);
void rattle_rc4(const uint8_t *key, size_t key_size, uint8_t *octets, size_t n);
uint32_t rattle_rc4_crc32(const uint8_t *key, size_t key_size, uint8_t *octets, size_t n);

/* Each works on the job's octets and gives a number to compare. */
typedef uint32_t Work(Job *job);

static uint32_t ours_crc32(Job *b) { return rattle_crc32(b->octets, b->size); }
static uint32_t peer_crc32(Job *b) { return c_crc32(b->octets, b->size); }

static uint32_t ours_rc4(Job *b)
{
    rattle_rc4(b->key, b->key_size, b->octets, b->size);
    return b->octets[0];
}

static uint32_t peer_rc4(Job *b)
{
    c_rc4(b->key, b->key_size, b->octets, b->size);
    return b->octets[0];
}

static uint32_t peer_rc4_words(Job *b)
{
    c_rc4_words(b->key, b->key_size, b->octets, b->size);
    return b->octets[0];
}

static uint32_t ours_both(Job *b) { return rattle_rc4_crc32(b->key, b->key_size, b->octets, b->size); }

static uint32_t peer_both(Job *b)
{
    uint32_t c = c_crc32(b->octets, b->size);
    c_rc4(b->key, b->key_size, b->octets, b->size);
    return c;
}

static uint32_t peer_both_words(Job *b)
{
    uint32_t c = c_crc32(b->octets, b->size);
    c_rc4_words(b->key, b->key_size, b->octets, b->size);
    return c;
}

static const struct {
    const char *name;
    Work *ours, *peer;
} cases[] = {
    {"CRC-32", ours_crc32, peer_crc32},
    {"RC4, C by octets", ours_rc4, peer_rc4},
    {"RC4, C by words", ours_rc4, peer_rc4_words},
    {"RC4 with CRC-32, C by octets", ours_both, peer_both},
    {"RC4 with CRC-32, C by words", ours_both, peer_both_words},
};

static double seconds(void)
{
    struct timespec t;
    clock_gettime(CLOCK_PROCESS_CPUTIME_ID, &t);
    return t.tv_sec + t.tv_nsec * 1e-9;
}

static void make(Job *job, size_t key_size, size_t size)
{
    job->key_size = key_size;
    job->size = size;
    for (size_t k = 0; k < sizeof job->key; k++)
        job->key[k] = (uint8_t)rand();
    for (size_t k = 0; k < SIZE; k++)
        job->octets[k] = (uint8_t)rand();
}

/* Both on the same inputs of many sizes; whatever differs ends the program. */
static void compare(const char *name, Work *ours, Work *peer)
{
    static Job a, b;
    for (int t = 0; t < INPUTS; t++) {
        make(&a, 1 + (size_t)rand() % 256, t < 64 ? (size_t)t : (size_t)rand() % (SIZE + 1));
        b = a;
        if (ours(&a) != peer(&b) || memcmp(&a, &b, sizeof a) != 0) {
            printf("%s: DIFFERS at %zu octets under a key of %zu\n", name, b.size, b.key_size);
            exit(1);
        }
    }
}

static double run(Work *work, Job *job)
{
    uint32_t sum = 0;
    double start = seconds();
    for (int k = 0; k < CALLS; k++) {
        job->key[0] = (uint8_t)k;
        sum += work(job);
    }
    double time = seconds() - start;
    job->key[1] ^= (uint8_t)sum;
    return time;
}

int main(void)
{
    static Job job;
    srand(1);
    for (size_t i = 0; i < sizeof cases / sizeof *cases; i++) {
        compare(cases[i].name, cases[i].ours, cases[i].peer);
        make(&job, 16, SIZE);
        double ours = 1e9, peer = 1e9;
        for (int r = 0; r < RUNS; r++) {
            double a = run(cases[i].ours, &job), b = run(cases[i].peer, &job);
            ours = a < ours ? a : ours;
            peer = b < peer ? b : peer;
        }
        double mb = (double)SIZE * CALLS / 1e6;
        printf("%-30s Rattle %5.0f MB/s  C %5.0f MB/s  ratio %.2f\n", cases[i].name, mb / ours, mb / peer, peer / ours);
    }
    return 0;
}
