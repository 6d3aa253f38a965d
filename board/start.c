/* How our programs start on a board, and what keeps them within the jig's memory.
 *
 * Code can't be written, data can't be executed, the guard below the stack can't be touched, and nothing else can be read or written, but for the
 * processor's own registers. That this holds is tried before main: each load, store and jump that must not go through is made, and has to fault at that very
 * address, or the run ends with status 4. Any other fault ends it with status 5, and says where it was. */
#include <string.h>

#include "board.h"
#include "port.h"

extern uint8_t data_start[], data_end[], data_from[], bss_start[], bss_end[];

int main(void);

static void say(const char *text) { port_write(PORT_ERR, text, strlen(text)); }

static void say_hex(const char *what, uint32_t x) {
    char text[9];
    for (int i = 7; 0 <= i; i--, x >>= 4) text[i] = "0123456789abcdef"[x & 15];
    text[8] = 0;
    say(what), say(text);
}

/* While a trial is made: where it must fault, and whether it has. */
static volatile int trying, stopped;
static volatile uint32_t expected;

void board_faulted(uint32_t at, uint32_t cause, uint32_t about) {
    if (trying && about == expected) {
        stopped = 1;
        return;
    }
    say_hex("board: a fault at ", at), say_hex(", cause ", cause), say_hex(", about ", about), say("\n");
    port_end(5);
}

void board_overflowed(void) {
    say("board: the stack has run into its guard\n");
    port_end(5);
}

static void try(uint32_t about) {
    expected = about;
    stopped = 0;
    trying = 1;
}

static void tried(const char *access, const char *what) {
    board_settle();
    trying = 0;
    if (stopped) return;
    say("board: not stopped: a "), say(access), say(" "), say(what), say("\n");
    port_end(4);
}

static void try_store(const char *what, uint32_t at) {
    try(at);
    *(volatile uint32_t *)at = 0;
    tried("store to", what);
}

static void try_both(const char *what, uint32_t at) {
    try_store(what, at);
    try(at);
    (void)*(volatile uint32_t *)at;
    tried("load from", what);
}

/* A function among the data, which only has to return. */
static void try_jump(void) {
    static uint16_t code[2];
    code[0] = board_return;
    board_settle();
    try((uint32_t)code);
    /* Thumb's functions have odd addresses */
#ifdef __thumb__
    ((void (*)(void))((uint32_t)code + 1))();
#else
    ((void (*)(void))(uint32_t)code)();
#endif
    tried("jump to", "data");
}

#ifdef TRAP_UNALIGNED
/* Of such a fault the processor tells no address. */
static void try_unaligned(void) {
    try(0);
    *(volatile uint32_t *)((uint32_t)bss_start + 1) = 0;
    tried("store to", "a word that isn't aligned");
    try(0);
    (void)*(volatile uint32_t *)((uint32_t)bss_start + 1);
    tried("load from", "a word that isn't aligned");
}
#endif

void board_start(void) {
    memcpy(data_start, data_from, (size_t)(data_end - data_start));
    memset(bss_start, 0, (size_t)(bss_end - bss_start));
    board_protect();
    try_both("the word before the code", (uint32_t)code_start - 4);
    try_store("the code's first word", (uint32_t)code_start);
    try_store("the code's last word", (uint32_t)code_top - 4);
    try_both("the word behind the code", (uint32_t)code_top);
    try_both("the guard's first word", (uint32_t)guard);
    try_both("the guard's last word", (uint32_t)stack_low - 4);
    try_both("the word behind the memory", (uint32_t)data_top);
    try_both("other memory of the board", (uint32_t)data_top + 0x10000);
    try_jump();
#ifdef TRAP_UNALIGNED
    try_unaligned();
#endif
    port_end(main());
}
