/* A board's processor where it is a RISC-V of 32 bits. */
#include "board.h"

/* c.jr ra */
const uint16_t board_return = 0x8082;

/* The instructions for its registers are an extension, which the assembler wants to be told of. */
__asm__(".option arch, +zicsr");
#define GET(name, to) __asm__ volatile("csrr %0, " #name : "=r"(to))
#define SET(name, from) __asm__ volatile("csrw " #name ", %0" ::"r"(from) : "memory")

enum { READ = 1, WRITE = 2, EXECUTE = 4, UP_TO = 8, LOCKED = 128 };

/* A region is what lies between the end of the one before and its own, in words. Locked, they bind the processor in every mode; the first that an
 * address is in holds, and the last has all the rest. */
#define REGION(number, end) SET(pmpaddr##number, (uint32_t)(end) >> 2)

void board_protect(void) {
    const uint32_t none = LOCKED | UP_TO, code = none | READ | EXECUTE, data = none | READ | WRITE;
    REGION(0, code_start);
    REGION(1, code_top);
    REGION(2, stack_low);
    REGION(3, data_top);
    SET(pmpaddr4, 0xffffffff);
    SET(pmpcfg1, none);
    SET(pmpcfg0, none | code << 8 | none << 16 | data << 24);
}

void board_settle(void) { __asm__ volatile("fence" ::: "memory"); }

/* Three instructions, of which two do nothing: that is how the debugger knows it is asked. */
uint32_t board_ask(uint32_t what, const void *with) {
    register uint32_t a0 __asm__("a0") = what;
    register const void *a1 __asm__("a1") = with;
    __asm__ volatile(".balign 16\n\t.option push\n\t.option norvc\n\tslli x0, x0, 0x1f\n\tebreak\n\tsrai x0, x0, 7\n\t.option pop"
                     : "+r"(a0) : "r"(a1) : "memory");
    return a0;
}

static uint32_t counted;

static uint32_t count(void) {
    uint32_t n;
    GET(minstret, n);
    return n;
}

void board_count(void) { counted = count(); }

uint64_t board_counted(void) { return count() - counted; }

/* A fault goes on behind the instruction, of four bytes or two; where what can't be executed was called, with its caller, to whom `back` is the way. */
enum { NOT_EXECUTED = 1 };

__attribute__((used)) static void faulted(uint32_t sp, uint32_t back) {
    uint32_t at, cause, about;
    GET(mepc, at);
    GET(mcause, cause);
    GET(mtval, about);
    if (sp < (uint32_t)stack_low) board_overflowed();
    board_faulted(at, cause, about);
    SET(mepc, cause == NOT_EXECUTED ? back : at + ((*(const uint16_t *)at & 3) == 3 ? 4 : 2));
}

/* Faults have a stack of their own, and leave the registers as they were. */
__attribute__((used)) static uint32_t fault_stack[256] __attribute__((aligned(16)));

__attribute__((naked, aligned(4))) static void fault(void) {
    __asm__ volatile("csrrw sp, mscratch, sp\n\t"
                     "addi sp, sp, -64\n\t"
                     "sw ra, 0(sp)\n\tsw t0, 4(sp)\n\tsw t1, 8(sp)\n\tsw t2, 12(sp)\n\tsw t3, 16(sp)\n\tsw t4, 20(sp)\n\t"
                     "sw t5, 24(sp)\n\tsw t6, 28(sp)\n\tsw a0, 32(sp)\n\tsw a1, 36(sp)\n\tsw a2, 40(sp)\n\tsw a3, 44(sp)\n\t"
                     "sw a4, 48(sp)\n\tsw a5, 52(sp)\n\tsw a6, 56(sp)\n\tsw a7, 60(sp)\n\t"
                     "csrr a0, mscratch\n\t"
                     "mv a1, ra\n\t"
                     "call faulted\n\t"
                     "lw ra, 0(sp)\n\tlw t0, 4(sp)\n\tlw t1, 8(sp)\n\tlw t2, 12(sp)\n\tlw t3, 16(sp)\n\tlw t4, 20(sp)\n\t"
                     "lw t5, 24(sp)\n\tlw t6, 28(sp)\n\tlw a0, 32(sp)\n\tlw a1, 36(sp)\n\tlw a2, 40(sp)\n\tlw a3, 44(sp)\n\t"
                     "lw a4, 48(sp)\n\tlw a5, 52(sp)\n\tlw a6, 56(sp)\n\tlw a7, 60(sp)\n\t"
                     "addi sp, sp, 64\n\t"
                     "csrrw sp, mscratch, sp\n\t"
                     "mret");
}

__attribute__((used, noreturn)) static void begin(void) {
    SET(mtvec, fault);
    SET(mscratch, fault_stack + sizeof fault_stack / sizeof *fault_stack);
    board_start();
}

__attribute__((section(".first"), naked, used)) void reset(void) {
    __asm__ volatile("la sp, stack_top\n\tj begin");
}
