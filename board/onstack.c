/* What jig/stack.c asks of a board: a call on another stack. In assembler, since C has no stack pointer. The own one waits in a register that every call
 * keeps. */
#include "onstack.h"

__asm__(".section .text.painted_call, \"ax\", %progbits\n\t"
        ".global painted_call\n\t"
        ".type painted_call, %function\n\t"
#if defined __thumb__
        ".syntax unified\n\t"
        ".thumb_func\n"
        "painted_call:\n\t"
        "push {r4, lr}\n\t"
        "mov r4, sp\n\t"
        "add r1, r2\n\t"
        "bic r1, #7\n\t"
        "mov sp, r1\n\t"
        "blx r0\n\t"
        "mov sp, r4\n\t"
        "pop {r4, pc}\n\t"
#elif defined __riscv && __riscv_xlen == 32
        "\n"
        "painted_call:\n\t"
        "addi sp, sp, -16\n\t"
        "sw ra, 12(sp)\n\t"
        "sw s0, 8(sp)\n\t"
        "mv s0, sp\n\t"
        "add a1, a1, a2\n\t"
        "andi sp, a1, -16\n\t"
        "jalr a0\n\t"
        "mv sp, s0\n\t"
        "lw s0, 8(sp)\n\t"
        "lw ra, 12(sp)\n\t"
        "addi sp, sp, 16\n\t"
        "ret\n\t"
#else
#error "how is this machine's stack pointer set?"
#endif
        ".text");
