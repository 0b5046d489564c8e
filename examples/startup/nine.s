@ ARM9: what the start-up code of libraries for home-made games does, in the language of GNU as, which clang reads too: the protection unit and caches set
@ up by CP15, DTCM moved to B000000h, stacks in it, a handshake by IPCSYNC, words by the FIFO, and an interrupt handler in Thumb code.
        .arm
        .section .text, "ax", %progbits
        .global _start
        .equ    PORTS,   0x4000000
        .equ    IPC,     0x4000180      @ IPCSYNC; 4 above it IPCFIFOCNT, 8 above IPCFIFOSEND
        .equ    RECEIVE, 0x4100000      @ IPCFIFORECV
        .equ    DTCM,    0xb000000
        .equ    FLAGS,   DTCM + 0x3ff8  @ where the boot ROM looks for flags; the handler's pointer follows

        .type   _start, %function
_start:
        mov     r0, #PORTS
        str     r0, [r0, #0x208]        @ IME = 0
        mov     r0, #0x12               @ IRQ mode's stack
        msr     cpsr_c, r0
        ldr     sp, =DTCM + 0x3fa0
        mov     r0, #0x13               @ Supervisor mode's
        msr     cpsr_c, r0
        ldr     sp, =DTCM + 0x3fc0
        mov     r0, #0x1f               @ System mode's
        msr     cpsr_c, r0
        ldr     sp, =DTCM + 0x3e00
        bl      memories
        ldr     r5, =answer
        ldr     r6, =frames
        bl      handshake
        bl      ask
        str     r0, [r5]
        bl      interrupts
again:
        swi     0x50000                 @ VBlankIntrWait
        ldr     r0, [r6]
        add     r0, r0, #1
        str     r0, [r6]
        b       again
        .size   _start, . - _start

@ both tightly coupled memories off, caches flushed, DTCM and ITCM placed, regions of the protection unit, and all of it on
        .type   memories, %function
memories:
        ldr     r1, =0x00002078
        mcr     p15, 0, r1, c1, c0, 0
        mov     r0, #0
        mcr     p15, 0, r0, c7, c5, 0   @ the instruction cache,
        mcr     p15, 0, r0, c7, c6, 0   @ the data cache,
        mcr     p15, 0, r0, c7, c10, 4  @ and the write buffer
        ldr     r0, =DTCM | 0x0a        @ 16 KiB
        mcr     p15, 0, r0, c9, c1, 0
        mov     r0, #0x20
        mcr     p15, 0, r0, c9, c1, 1
        ldr     r0, =0x04000033         @ region 0: ports
        mcr     p15, 0, r0, c6, c0, 0
        ldr     r0, =0xffff001d         @ region 1: boot ROM
        mcr     p15, 0, r0, c6, c1, 0
        ldr     r0, =0x0200002b         @ region 6: main memory
        mcr     p15, 0, r0, c6, c6, 0
        mov     r0, #0x42               @ which regions are cached and buffered
        mcr     p15, 0, r0, c3, c0, 0
        mcr     p15, 0, r0, c2, c0, 0
        mcr     p15, 0, r0, c2, c0, 1
        ldr     r0, =0x36636633         @ rights
        mcr     p15, 0, r0, c5, c0, 3
        mcr     p15, 0, r0, c5, c0, 2
        mrc     p15, 0, r0, c1, c0, 0
        ldr     r1, =0x00055005
        orr     r0, r0, r1
        mcr     p15, 0, r0, c1, c0, 0
        bx      lr
        .size   memories, . - memories

@ sends 1 until ARM7 sends 1, then 0 until it sends 0
        .type   handshake, %function
handshake:
        ldr     r2, =IPC
        mov     r0, #0x100
        strh    r0, [r2]
up:
        ldrh    r1, [r2]
        and     r1, r1, #15
        cmp     r1, #1
        bne     up
        mov     r0, #0
        strh    r0, [r2]
down:
        ldrh    r1, [r2]
        tst     r1, #15
        bne     down
        bx      lr
        .size   handshake, . - handshake

@ sends a word through the FIFO, and returns the one that comes back
        .type   ask, %function
ask:
        ldr     r2, =IPC
        ldr     r0, =0xc408             @ on, errors cleared, an interrupt for what comes, the send FIFO emptied
        strh    r0, [r2, #4]
        ldr     r0, =0x12345678
        str     r0, [r2, #8]
empty:
        ldrh    r1, [r2, #4]
        tst     r1, #0x100
        bne     empty
        ldr     r3, =RECEIVE
        ldr     r0, [r3]
        bx      lr
        .size   ask, . - ask

        .type   interrupts, %function
interrupts:
        ldr     r0, =FLAGS
        ldr     r1, =handler            @ (an odd address, since it is Thumb code)
        str     r1, [r0, #4]
        mov     r0, #PORTS
        mov     r1, #8
        strh    r1, [r0, #4]            @ DISPSTAT: V-blank interrupts
        mov     r1, #1
        str     r1, [r0, #0x210]        @ IE
        str     r1, [r0, #0x208]        @ IME
        bx      lr
        .size   interrupts, . - interrupts
        .pool

@ clears what was asked for, sets its flag for VBlankIntrWait, and counts in DTCM
        .thumb
        .thumb_func
        .type   handler, %function
handler:
        ldr     r0, =PORTS + 0x200
        ldr     r1, [r0, #0x14]
        str     r1, [r0, #0x14]         @ IF
        ldr     r2, =FLAGS
        ldr     r3, [r2]
        orrs    r3, r1
        str     r3, [r2]
        ldr     r2, =counted
        ldr     r3, [r2]
        adds    r3, #1
        str     r3, [r2]
        bx      lr
        .size   handler, . - handler
        .pool

        .macro  result name
        .type   \name, %object
        .size   \name, 4
        .global \name
\name:  .space  4
        .endm
        .section .data, "aw", %progbits
        .balign 4
        result  answer
        result  frames
        .section .dtcm, "aw", %nobits
        .balign 4
        result  counted
