/* Memory of the LM3S6965, a Cortex-M3: the image lies in flash, and what begins with other values than 0 is copied by start.c. */
ENTRY(reset)
MEMORY
{
    flash : ORIGIN = 0x00000000, LENGTH = 256K
    ram : ORIGIN = 0x20000000, LENGTH = 64K
}
SECTIONS
{
    .text : { KEEP(*(.vectors)) *(.text*) *(.rodata*) } > flash
    .data : { data_begin = .; *(.data*) . = ALIGN(4); data_end = .; } > ram AT > flash
    data_image = LOADADDR(.data);
    .bss : { bss_begin = .; *(.bss*) *(COMMON) . = ALIGN(4); bss_end = .; } > ram
    stack_top = ORIGIN(ram) + LENGTH(ram);
}
