/* What lies where in the 512 KiB that a jig has: `code`, which nothing writes to, and `data`. The stack stands lowest in the data, over a guard that stops
 * it before it would reach anything else; then comes what the program has, and the end of memory is the end of both. */
ENTRY(reset)

guard_bytes = 256;
stack_bytes = 40K;

SECTIONS {
    code_start = ORIGIN(code);
    code_top = ORIGIN(code) + LENGTH(code);
    .text : { KEEP(*(.first)) *(.text .text.*) *(.rodata .rodata.* .srodata .srodata.*) . = ALIGN(8); } > code
    guard = ORIGIN(data);
    stack_low = guard + guard_bytes;
    stack_top = guard + stack_bytes;
    .stack (NOLOAD) : { . += stack_bytes; } > data
    .data : { data_start = .; *(.data .data.* .sdata .sdata.*) . = ALIGN(8); data_end = .; } > data AT > code
    data_from = LOADADDR(.data);
    .bss (NOLOAD) : { bss_start = .; *(.bss .bss.* .sbss .sbss.* COMMON) . = ALIGN(8); bss_end = .; } > data
    data_top = ORIGIN(data) + LENGTH(data);
    /DISCARD/ : { *(.ARM.exidx* .ARM.extab* .eh_frame*) }
}
