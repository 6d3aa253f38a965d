/* Two calls that answer otherwise than the library's, for tests/board-example: a head that is refused, and another interface. */
#include <string.h>

#include "sillthread.h"

void refused_head(const uint8_t *b, uint64_t len, uint64_t at, uint64_t told[SILL_HEAD_TOLD]);
uint64_t other_interface(void);

void refused_head(const uint8_t *b, uint64_t len, uint64_t at, uint64_t told[SILL_HEAD_TOLD]) {
    (void)len;
    memset(told, 0, SILL_HEAD_TOLD * sizeof *told);
    told[SILL_HEAD_NUMBER] = SILL_TEXT;
    told[SILL_HEAD_TAG] = b[at];
    told[SILL_HEAD_OFFSET] = at;
}

uint64_t other_interface(void) { return SILL_INTERFACE + 1; }
