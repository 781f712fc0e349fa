/* The same ciphers in plain C, written for comparison. */
#include <stddef.h>
#include <stdint.h>

uint32_t c_crc32(const uint8_t *octets, size_t n);

/* RC4 octet by octet, as it is mostly written. */
void c_rc4(const uint8_t *key, size_t key_size, uint8_t *octets, size_t n);

/* RC4 eight octets at a time, as the Rattle crate does it. */
void c_rc4_words(const uint8_t *key, size_t key_size, uint8_t *octets, size_t n);
