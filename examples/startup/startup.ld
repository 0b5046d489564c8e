/* ARM9's program in main memory, and its variables in DTCM, which has no bytes in the cartridge. */
ENTRY(_start)
SECTIONS
{
    .text 0x2000000 : { *(.text) }
    .data : { *(.data) }
    .dtcm 0xb000000 (NOLOAD) : { *(.dtcm) }
}
