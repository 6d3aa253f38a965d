/* jig/port.h by semihosting: the debugger, or QEMU, does what it is asked for. Standard input, output and error have the name :tt, and are told
 * apart by how they are opened. */
#include "board.h"
#include "port.h"

enum { SYS_OPEN = 0x01, SYS_WRITE = 0x05, SYS_READ = 0x06, SYS_EXIT_EXTENDED = 0x20, APPLICATION_EXIT = 0x20026 };
enum { OPEN_READ = 1, OPEN_WRITE = 4, OPEN_APPEND = 8 };

/* A handle, opened at its first use. */
static uint32_t opened(uint32_t *handle, uint32_t mode) {
    static const char name[] = ":tt";
    if (*handle == 0) {
        const uint32_t words[] = {(uint32_t)name, mode, sizeof name - 1};
        *handle = board_ask(SYS_OPEN, words);
    }
    return *handle;
}

/* Both answer how many bytes are left. Where none came, the input has ended; of an input that can't be read QEMU says the same. */
long port_read(void *to, size_t n) {
    static uint32_t in;
    const uint32_t words[] = {opened(&in, OPEN_READ), (uint32_t)to, n};
    const uint32_t left = board_ask(SYS_READ, words);
    return n < left ? -1 : (long)(n - left);
}

int port_write(enum port where, const void *from, size_t n) {
    static uint32_t out[2];
    const uint32_t words[] = {opened(&out[where], where == PORT_OUT ? OPEN_WRITE : OPEN_APPEND), (uint32_t)from, n};
    return board_ask(SYS_WRITE, words) == 0 ? 0 : -1;
}

void port_end(int status) {
    const uint32_t words[] = {APPLICATION_EXIT, (uint32_t)status};
    for (;;) board_ask(SYS_EXIT_EXTENDED, words);
}
