/* ARM9: a picture in the frame buffer mode on the upper screen, and one in a 16-bit bitmap background, turned, on the lower one. Both are drawn
   once, pixel by pixel; then the processor halts. */
typedef unsigned char u8;
typedef unsigned short u16;
typedef unsigned int u32;

#define PORT8(address) (*(volatile u8 *)(address))
#define PORT16(address) (*(volatile u16 *)(address))
#define PORT32(address) (*(volatile u32 *)(address))

#define DISPCNT PORT32(0x4000000)
#define VRAMCNT_A PORT8(0x4000240)
#define VRAMCNT_C PORT8(0x4000242)
#define POWCNT1 PORT16(0x4000304)
#define SUB_DISPCNT PORT32(0x4001000)
#define SUB_BG3CNT PORT16(0x400100E)
#define SUB_BG3PA PORT16(0x4001030)
#define SUB_BG3PB PORT16(0x4001032)
#define SUB_BG3PC PORT16(0x4001034)
#define SUB_BG3PD PORT16(0x4001036)
#define SUB_PALETTE ((volatile u16 *)0x5000400)

#define BANK_A ((volatile u16 *)0x6800000)
#define SUB_BACKGROUNDS ((volatile u16 *)0x6200000)
#define OPAQUE 0x8000u

/* What the tests look at. */
volatile u32 pixels;

static u32 colour(u32 red, u32 green, u32 blue)
{
    return red | green << 5 | blue << 10;
}

/* How far a point is from another, squared. */
static u32 distance(u32 x, u32 y, u32 from_x, u32 from_y)
{
    int across = (int)x - (int)from_x, down = (int)y - (int)from_y;
    return (u32)(across * across + down * down);
}

/* The upper screen's picture lies in bank A, line by line: 256 halves each. A disc stands on a plane of colours, in the opposite ones. */
static void draw_frame_buffer(void)
{
    for (u32 y = 0; y < 192; y++)
        for (u32 x = 0; x < 256; x++) {
            u32 c = colour(x / 8, y / 8, (x ^ y) / 16);
            BANK_A[256 * y + x] = distance(x, y, 128, 96) < 64 * 64 ? c ^ 0x7fff : c;
            pixels++;
        }
}

/* The lower screen's has 128 by 128 halves: a disc, and no pixel around it, so that the backdrop shows there. */
static void draw_bitmap(void)
{
    for (u32 y = 0; y < 128; y++)
        for (u32 x = 0; x < 128; x++) {
            u32 d = distance(x, y, 64, 64);
            SUB_BACKGROUNDS[128 * y + x] = d < 60 * 60 ? colour(31 - d / 128, d / 128, 16) | OPAQUE : 0;
            pixels++;
        }
}

int main(void)
{
    POWCNT1 = 1 << 0 | 1 << 1 | 1 << 9 | 1 << 15; /* both engines, A above */
    VRAMCNT_A = 0x80;                             /* as it lies, for the frame buffer */
    VRAMCNT_C = 0x84;                             /* engine B's backgrounds */
    DISPCNT = 2 << 16 | 0 << 18;                  /* display mode 2: bank A */
    SUB_DISPCNT = 1 << 16 | 5 | 1 << 11;          /* layers, mode 5, background 3 */
    SUB_BG3CNT = 1 << 2 | 1 << 7 | 1 << 13;       /* a bitmap of halves, 128 by 128, that begins again outside */
    SUB_BG3PA = 0x100;                            /* a slant of a quarter both ways */
    SUB_BG3PB = 0x40;
    SUB_BG3PC = (u16)-0x40;
    SUB_BG3PD = 0x100;
    SUB_PALETTE[0] = colour(4, 6, 10);
    draw_frame_buffer();
    draw_bitmap();
    for (;;)
        __asm__ volatile("swi 0x60000" ::: "r0", "r1", "r3", "r12", "lr", "memory", "cc"); /* Halt: nothing wakes it */
}
