@ ARM9: a text background that scrolls, two objects that keys move, and a triangle for the geometry engine, with labels and comments in the language of GNU as, which clang reads too.
@ Registers that are kept all along: r8 the ports, r9 the object attributes, r10 the results.

        .arm
        .section .text, "ax", %progbits
        .global _start, background, triangle, left, right, scroll, frames

        .equ    PORTS,   0x4000000
        .equ    VRAM,    0x6000000      @ backgrounds of engine A
        .equ    TILES,   0x6400000      @ objects of engine A
        .equ    PALETTE, 0x5000000
        .equ    OBJECTS, 0x7000000
        .equ    GEOMETRY, 0x4000400     @ FIFO; the command n has its port 4n above
        .equ    DTCM,    0xb000000      @ where this program puts it: at boot it is elsewhere on a console and in other emulators
        .equ    FLAGS,   DTCM + 0x3ff8  @ where the boot ROM looks for flags; the handler's pointer follows
        .equ    KEYS_X,  0x030          @ RIGHT and LEFT
        .equ    KEYS_LR, 0x300          @ R and L

_start:
        mov     r8, #PORTS
        str     r8, [r8, #0x208]        @ IME: bit 0 is clear, so no interrupt comes
        ldr     r0, =0x00002078         @ CP15's control: ITCM, DTCM, caches and protection unit are off, vectors are high
        mcr     p15, 0, r0, c1, c0, 0
        mov     r0, #0
        mcr     p15, 0, r0, c7, c5, 0   @ what the caches hold is dropped,
        mcr     p15, 0, r0, c7, c6, 0
        mcr     p15, 0, r0, c7, c10, 4  @ and the write buffer goes to memory
        ldr     r0, =DTCM + 0xa         @ DTCM has 16 KiB,
        mcr     p15, 0, r0, c9, c1, 0
        mov     r0, #0x20               @ and ITCM goes from 0 to 1FFFFFFh
        mcr     p15, 0, r0, c9, c1, 1
        ldr     r0, =0x00052078         @ both are on
        mcr     p15, 0, r0, c1, c0, 0
        msr     cpsr_c, #0xd2           @ stacks of IRQ mode, of Supervisor mode and of System mode
        ldr     sp, =DTCM + 0x3fa0
        msr     cpsr_c, #0xd3
        ldr     sp, =DTCM + 0x3fc0
        msr     cpsr_c, #0xdf
        ldr     sp, =DTCM + 0x3e00
        ldr     r9, =OBJECTS
        ldr     r10, =results
        bl      screens
        bl      background
        bl      objects
        bl      interrupts
frame:
        swi     0x50000                 @ VBlankIntrWait
        ldr     r0, [r10, #12]
        add     r0, r0, #1
        str     r0, [r10, #12]          @ frames
        ldr     r4, =0x4000130
        ldrh    r4, [r4]                @ KEYINPUT: 0 tells that a key is pressed
        mvn     r4, r4
        ldr     r0, [r10]
        and     r1, r4, #KEYS_X
        mov     r1, r1, lsr #4
        bl      moved
        str     r0, [r10]               @ left: RIGHT and LEFT move it
        strh    r0, [r9, #2]
        ldr     r0, [r10, #4]
        and     r1, r4, #KEYS_LR
        mov     r1, r1, lsr #8
        bl      moved
        str     r0, [r10, #4]           @ right: R and L move it
        strh    r0, [r9, #10]
        ldr     r0, [r10, #8]
        add     r0, r0, #1
        str     r0, [r10, #8]           @ scroll
        strh    r0, [r8, #0x14]         @ BG1HOFS
        bl      triangle
        b       frame

@ one triangle and a swap, which is done at the next V-blank; its first corner goes with the left object
triangle:
        ldr     r0, =GEOMETRY
        ldr     r1, =0x1f00c0           @ seen from both sides, opaque
        str     r1, [r0, #0xa4]         @ POLYGON_ATTR
        mov     r1, #0
        str     r1, [r0, #0x100]        @ BEGIN_VTXS: triangles
        ldr     r1, =0x7fff
        str     r1, [r0, #0x80]         @ COLOR
        ldr     r1, [r10]               @ left
        mov     r1, r1, lsl #4
        mov     r2, #0
        str     r1, [r0, #0x8c]         @ VTX_16: x and y, then z
        str     r2, [r0, #0x8c]
        mov     r1, #0x10000000         @ y is 1, which is 1000h
        str     r1, [r0, #0x8c]
        str     r2, [r0, #0x8c]
        ldr     r1, =0xf0000000         @ y is -1
        str     r1, [r0, #0x8c]
        mov     r2, #0x800              @ z is a half
        str     r2, [r0, #0x8c]
        mov     r1, #0
        str     r1, [r0, #0x104]        @ END_VTXS
        str     r1, [r0, #0x140]        @ SWAP_BUFFERS
        bx      lr

@ r0 and 1 where bit 0 of r1 is set, less 1 where bit 1 is; kept to 0 to 255
moved:
        tst     r1, #1
        addne   r0, r0, #1
        tst     r1, #2
        subne   r0, r0, #1
        and     r0, r0, #0xff
        bx      lr

@ both engines on, engine A above; bank A for backgrounds, bank B for objects
screens:
        ldr     r0, =0x820f
        add     r1, r8, #0x300
        strh    r0, [r1, #4]            @ POWCNT1
        add     r1, r8, #0x240
        mov     r0, #0x81
        strb    r0, [r1]                @ VRAMCNT_A: backgrounds of A
        mov     r0, #0x82
        strb    r0, [r1, #1]            @ VRAMCNT_B: objects of A
        ldr     r0, =0x11308            @ graphics, background 0 as 3D, background 1, objects
        str     r0, [r8]                @ DISPCNT of A
        add     r1, r8, #0x1000
        mov     r0, #0x10000
        str     r0, [r1]                @ DISPCNT of B: its backdrop alone
        ldr     r1, =PALETTE
        ldr     r0, =colours
        mov     r2, #0
colour:                                 @ (five halves, each to the place in the palette behind it)
        ldr     r3, [r0], #4
        mov     r4, r3, lsr #16
        strh    r3, [r1, r4]
        add     r2, r2, #1
        cmp     r2, #5
        blo     colour
        bx      lr

@ tile 1 is striped; the map, 800h behind the tiles, has it where column and row are both even or both odd
background:
        ldr     r0, =0x101
        strh    r0, [r8, #10]           @ BG1CNT: tiles at 0, map at 800h, priority 1
        ldr     r0, =VRAM
        ldr     r1, =0x11112222
        mov     r2, #0x20
tile:
        str     r1, [r0, r2]
        add     r2, r2, #4
        cmp     r2, #0x40
        blo     tile
        add     r0, r0, #0x800
        mov     r2, #0
cell:
        add     r3, r2, r2, lsr #5
        and     r3, r3, #1
        mov     r1, r2, lsl #1
        strh    r3, [r0, r1]
        add     r2, r2, #1
        cmp     r2, #0x400
        blo     cell
        bx      lr

@ objects 0 and 1, 8 by 8 in 16 colours, of tile 0; all others are off
objects:
        ldr     r0, =TILES
        ldr     r1, =0x11111111
        mov     r2, #0
fill:
        str     r1, [r0, r2]
        add     r2, r2, #4
        cmp     r2, #0x20
        blo     fill
        mov     r0, #0x200
        mov     r2, #16
off:
        strh    r0, [r9, r2]
        add     r2, r2, #8
        cmp     r2, #0x400
        blo     off
        mov     r0, #60
        strh    r0, [r9]                @ Y of object 0
        mov     r0, #120
        strh    r0, [r9, #8]            @ Y of object 1
        bx      lr

@ V-blank interrupts, by the boot ROM's entry
interrupts:
        ldr     r0, =FLAGS
        ldr     r1, =handler
        str     r1, [r0, #4]
        mov     r0, #8
        strh    r0, [r8, #4]            @ DISPSTAT: V-blank interrupts
        mov     r0, #1
        str     r0, [r8, #0x210]        @ IE
        str     r0, [r8, #0x208]        @ IME
        mov     r0, #0x1f
        msr     cpsr_c, r0
        bx      lr

@ clears what was asked for, and sets its flag for VBlankIntrWait; may change r0 to r3
handler:
        mov     r0, #PORTS
        ldr     r1, [r0, #0x214]
        str     r1, [r0, #0x214]        @ IF
        ldr     r2, =FLAGS
        ldr     r3, [r2]
        orr     r3, r3, r1
        str     r3, [r2]
        bx      lr

@ a colour, and its place in the palette
colours:
        .hword  0x2108, 0x000           @ engine A's backdrop
        .hword  0x001f, 0x002           @ the stripes
        .hword  0x4010, 0x004
        .hword  0x03ff, 0x202           @ the objects
        .hword  0x0210, 0x400           @ engine B's backdrop
        .pool

@ what a test looks at
        .section .data, "aw", %progbits
        .macro  result name, value
        .type   \name, %object
        .size   \name, 4
\name:  .word   \value
        .endm
        .balign 4
results:
        result  left, 40
        result  right, 200
        result  scroll, 0
        result  frames, 0
