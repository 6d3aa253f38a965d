/* A board's processor where it is a Cortex-M3 or M4. */
#include "board.h"

void reset(void);

/* bx lr */
const uint16_t board_return = 0x4770;

/* The registers of the processor that are used here. */
#define REGISTER(at) (*(volatile uint32_t *)(at))
#define SYST_CSR REGISTER(0xe000e010)
#define SYST_RVR REGISTER(0xe000e014)
#define SYST_CVR REGISTER(0xe000e018)
#define CCR REGISTER(0xe000ed14)
#define SHCSR REGISTER(0xe000ed24)
#define CFSR REGISTER(0xe000ed28)
#define MMFAR REGISTER(0xe000ed34)
#define MPU_CTRL REGISTER(0xe000ed94)
#define MPU_RNR REGISTER(0xe000ed98)
#define MPU_RBAR REGISTER(0xe000ed9c)
#define MPU_RASR REGISTER(0xe000eda0)
#define CPACR REGISTER(0xe000ed88)

enum { UNALIGN_TRP = 1 << 3, FAULTS_ENABLED = 7 << 16, IACCVIOL = 1, MMARVALID = 1 << 7, MPU_ENABLED = 1, SYST_ON = 5, SYST_MOST = 0xffffff };
enum { NEVER_EXECUTED = 1 << 28, NO_ACCESS = 0 << 24, READ_WRITE = 3 << 24, READ_ONLY = 6 << 24, NORMAL_MEMORY = 6 << 16, LAST_EIGHTH_OFF = 1 << 15 };

/* A region of 2^bits bytes. Where two overlap the one with the higher number holds, and where there is none nothing can be reached. */
static void region(uint32_t number, const uint8_t *start, uint32_t bits, uint32_t rights) {
    MPU_RNR = number;
    MPU_RBAR = (uint32_t)start;
    MPU_RASR = rights | NORMAL_MEMORY | (bits - 1) << 1 | 1;
}

void board_protect(void) {
    region(0, code_start, 16, READ_ONLY);
    region(1, guard, 19, READ_WRITE | NEVER_EXECUTED | LAST_EIGHTH_OFF);
    region(2, guard, 8, NO_ACCESS | NEVER_EXECUTED);
    SHCSR |= FAULTS_ENABLED;
    MPU_CTRL = MPU_ENABLED;
#ifdef TRAP_UNALIGNED
    CCR |= UNALIGN_TRP;
#endif
    board_settle();
}

void board_settle(void) { __asm__ volatile("dsb\n\tisb" ::: "memory"); }

uint32_t board_ask(uint32_t what, const void *with) {
    register uint32_t r0 __asm__("r0") = what;
    register const void *r1 __asm__("r1") = with;
    __asm__ volatile("bkpt 0xab" : "+r"(r0) : "r"(r1) : "memory");
    return r0;
}

/* The processor's timer counts down, and under QEMU once in 40 instructions. */
void board_count(void) { SYST_RVR = SYST_MOST, SYST_CVR = 0, SYST_CSR = SYST_ON; }

uint64_t board_counted(void) { return 40ull * (SYST_MOST - SYST_CVR); }

/* What a fault leaves on the stack: four registers, r12, the way back, where it was, and the flags. It goes on behind the instruction, of four bytes or
 * two; where what can't be executed was called, with its caller. */
enum { BACK = 5, WHERE = 6 };

__attribute__((used)) static void faulted(uint32_t *left) {
    const uint32_t at = left[WHERE], cause = CFSR;
    board_faulted(at, cause, cause & IACCVIOL ? at : cause & MMARVALID ? MMFAR : 0);
    CFSR = cause;
    left[WHERE] = cause & IACCVIOL ? left[BACK] & ~1u : at + (0xe800 <= *(const uint16_t *)at ? 4 : 2);
}

/* The fault's stack is the program's own, unless that is what is at fault. */
__attribute__((naked)) static void fault(void) {
    __asm__ volatile("mov r0, sp\n\t"
                     "ldr r1, =stack_low + 256\n\t"
                     "cmp r0, r1\n\t"
                     "bhs faulted\n\t"
                     "ldr r0, =stack_top\n\t"
                     "mov sp, r0\n\t"
                     "b board_overflowed\n\t"
                     ".ltorg");
}

void reset(void) {
#ifdef __ARM_FP
    /* the registers of floats may be used */
    CPACR |= 15 << 20;
    board_settle();
#endif
    board_start();
}

/* Where the processor finds its stack and what it calls: at the start, and for each fault. */
__attribute__((section(".first"), used)) static const struct {
    void *stack;
    void (*call[6])(void);
} vectors = {stack_top, {reset, fault, fault, fault, fault, fault}};
