// A plain reader in C of the same work, to be timed beside ours: calls of jig/sillthread.h under other names, with the same answers.
#include <stddef.h>
#include <stdint.h>

void plain_read(const uint8_t *b, size_t len, size_t limit, uint32_t *tape, size_t words, uint64_t told[7], uint64_t path[128]);
void plain_find_name(const uint8_t *b, size_t len, size_t at, size_t limit, const uint8_t *name, size_t n, uint64_t told[7],
                     uint64_t path[128]);
void plain_find_number(const uint8_t *b, size_t len, size_t at, size_t limit, int64_t number, uint64_t told[7], uint64_t path[128]);
void plain_head(const uint8_t *b, size_t len, size_t at, uint64_t told[9]);
void plain_header(const uint8_t *b, size_t len, uint64_t filled[4], uint8_t *store, size_t store_len, uint64_t told[3]);
void plain_message(const uint8_t *b, size_t len, size_t limit, uint64_t filled[4], uint8_t *store, size_t store_len, uint8_t run[256],
                   uint32_t *tape, size_t words, uint64_t told[7], uint64_t path[128]);
size_t plain_utf8(const uint8_t *b, size_t len);
