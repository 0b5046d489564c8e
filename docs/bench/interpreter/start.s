@ Goes to main, which is Thumb code, in ARM state; ARMv4T has no blx.
        .arm
        .section .start, "ax", %progbits
        .global _start
        .type   _start, %function
_start:
        bic     sp, sp, #7
        ldr     r0, =main
        bx      r0
        .size   _start, . - _start
        .pool
