/* TKIP in plain C, written for comparison. */
#include <stddef.h>
#include <stdint.h>

/* The key mixing's table is made once, from the S-box. */
void c_tkip_begin(void);

void c_tkip_seal(const uint8_t *key, const uint8_t *header, uint64_t counter, const uint8_t *piece, size_t n, uint8_t *out);

/* The length of the piece, or 0 where its CRC-32 is another. */
size_t c_tkip_open(const uint8_t *key, const uint8_t *header, const uint8_t *body, size_t n, uint8_t *out);

void c_michael(const uint8_t *key, const uint8_t *destination, const uint8_t *source, const uint8_t *message, size_t n, uint8_t *code);
