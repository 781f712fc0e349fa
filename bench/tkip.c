/* Speed of proved TKIP beside plain C: first that both give the same, then megaoctets of message a second. */
#include "peer_tkip.h"
#include <stdio.h>
#include <stdlib.h>
#include <string.h>
#include <time.h>

enum { MOST = 2304, RUNS = 15, INPUTS = 3000 };

static const size_t sizes[] = {64, 384, 2304};

/* Exported by the crate bench. */
void rattle_tkip_seal(const uint8_t *key, size_t key_size, const uint8_t *header, size_t header_size, uint64_t counter, const uint8_t *piece, size_t n, uint8_t *out, size_t room);
size_t rattle_tkip_open(const uint8_t *key, size_t key_size, const uint8_t *header, size_t header_size, const uint8_t *body, size_t n, uint8_t *out, size_t room);
void rattle_michael(const uint8_t *key, size_t key_size, const uint8_t *header, size_t header_size, const uint8_t *message, size_t n, uint8_t *code, size_t room);

typedef struct {
    uint8_t key[32], header[24], piece[MOST], body[MOST + 12], code[8];
    uint64_t counter;
    size_t size;
} Job;

typedef void Work(Job *job);

static void ours_seal(Job *j) { rattle_tkip_seal(j->key, 32, j->header, 24, j->counter, j->piece, j->size, j->body, j->size + 12); }
static void peer_seal(Job *j) { c_tkip_seal(j->key, j->header, j->counter, j->piece, j->size, j->body); }
static void ours_open(Job *j) { j->counter = rattle_tkip_open(j->key, 32, j->header, 24, j->body, j->size + 12, j->piece, j->size); }
static void peer_open(Job *j) { j->counter = c_tkip_open(j->key, j->header, j->body, j->size + 12, j->piece); }
static void ours_code(Job *j) { rattle_michael(j->key + 16, 8, j->header, 24, j->piece, j->size, j->code, 8); }
static void peer_code(Job *j) { c_michael(j->key + 16, j->header + 4, j->header + 16, j->piece, j->size, j->code); }

static const struct {
    const char *name;
    Work *ours, *peer;
} cases[] = {{"TKIP seal", ours_seal, peer_seal}, {"TKIP open", ours_open, peer_open}, {"Michael", ours_code, peer_code}};

static double seconds(void)
{
    struct timespec t;
    clock_gettime(CLOCK_PROCESS_CPUTIME_ID, &t);
    return t.tv_sec + t.tv_nsec * 1e-9;
}

static void make(Job *job, size_t size)
{
    for (size_t k = 0; k < sizeof *job; k++)
        ((uint8_t *)job)[k] = (uint8_t)rand();
    job->counter &= 0xffffffffffff;
    job->size = size;
    peer_seal(job);
}

static void compare(const char *name, Work *ours, Work *peer)
{
    static Job a, b;
    for (int t = 0; t < INPUTS; t++) {
        make(&a, t < 64 ? (size_t)t + 1 : 1 + (size_t)rand() % MOST);
        b = a;
        ours(&a);
        peer(&b);
        if (memcmp(&a, &b, sizeof a) != 0) {
            printf("%s: DIFFERS at %zu octets\n", name, b.size);
            exit(1);
        }
    }
}

static double run(Work *work, Job *job, int calls)
{
    double start = seconds();
    for (int k = 0; k < calls; k++)
        work(job);
    return seconds() - start;
}

int main(void)
{
    static Job job;
    srand(1);
    c_tkip_begin();
    for (size_t i = 0; i < sizeof cases / sizeof *cases; i++) {
        compare(cases[i].name, cases[i].ours, cases[i].peer);
        for (size_t s = 0; s < sizeof sizes / sizeof *sizes; s++) {
            int calls = (int)(4000000 / (sizes[s] + 300));
            double ours = 1e9, peer = 1e9;
            make(&job, sizes[s]);
            for (int r = 0; r < RUNS; r++) {
                double a = run(cases[i].ours, &job, calls), b = run(cases[i].peer, &job, calls);
                ours = a < ours ? a : ours;
                peer = b < peer ? b : peer;
            }
            double mb = (double)sizes[s] * calls / 1e6;
            printf("%-10s %4zu octets  Rattle %5.0f MB/s  C %5.0f MB/s  ratio %.2f\n", cases[i].name, sizes[s], mb / ours, mb / peer, peer / ours);
        }
    }
    return 0;
}
