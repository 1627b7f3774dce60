/* Where two functions begin, so that no jump of their loops and choices ends at or crosses 32 bytes: processors of Intel before
 * Ice Lake decode what is around such a jump anew each time (Intel, "Mitigations for Jump Conditional Code Erratum"). All others
 * lie where the linker puts them. */
SECTIONS
{
    .text.pgmsg_read_logical : ALIGN(64) { *(.text.pgmsg_read_logical) }
    .text.copy_bytes : ALIGN(32) { . = . + 16; *(.text.*copy_bytes) }
}
