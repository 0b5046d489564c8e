@ ARM7: answers ARM9's handshake, and the word that comes through the FIFO with the next number.
        .arm
        .section .text, "ax", %progbits
        .global _start
        .equ    IPC,     0x4000180
        .equ    RECEIVE, 0x4100000
        .type   _start, %function
_start:
        ldr     r2, =IPC
up:
        ldrh    r1, [r2]
        and     r1, r1, #15
        cmp     r1, #1
        bne     up
        mov     r0, #0x100
        strh    r0, [r2]
down:
        ldrh    r1, [r2]
        tst     r1, #15
        bne     down
        mov     r0, #0
        strh    r0, [r2]
        ldr     r0, =0xc408             @ FIFOs on
        strh    r0, [r2, #4]
empty:
        ldrh    r1, [r2, #4]
        tst     r1, #0x100
        bne     empty
        ldr     r3, =RECEIVE
        ldr     r0, [r3]
        add     r0, r0, #1
        str     r0, [r2, #8]
        mov     r0, #0x4000000
        mov     r1, #0x80
rest:
        strb    r1, [r0, #0x301]        @ HALTCNT
        b       rest
        .size   _start, . - _start
        .pool
