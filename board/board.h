/* What a processor's own part, board/arm.c or board/riscv.c, and the rest of a board know of each other. */
#ifndef BOARD_H
#define BOARD_H

#include <stdint.h>

/* By their addresses, the memory as board/sections.ld lays it out: the code's start and end, the guard, the stack over it, and the end of all. */
extern uint8_t code_start[], code_top[], guard[], stack_low[], stack_top[], data_top[];

/* Of the processor: keeps the program within its memory, waits until all stores are done, asks the debugger for something, and counts instructions (where
 * QEMU runs with -icount shift=0), at most 600 million at a time. */
void board_protect(void);
void board_settle(void);
uint32_t board_ask(uint32_t what, const void *with);
void board_count(void);
uint64_t board_counted(void);

/* A function that does nothing but return, as the processor has it. */
extern const uint16_t board_return;

/* Of the rest: the start, behind which the memory is as C expects it; and a fault. It is told where the fault was, of which cause, and the address that
 * could not be loaded from, stored to or executed, or 0 where the processor doesn't tell it. It comes back only where the fault was expected. */
__attribute__((noreturn)) void board_start(void);
__attribute__((noreturn)) void board_overflowed(void);
void board_faulted(uint32_t at, uint32_t cause, uint32_t about);

#endif
