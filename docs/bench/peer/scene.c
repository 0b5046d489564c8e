/* A scene as a game has it: 40 objects of three sizes, a third of them semi-transparent, and three text backgrounds that move, blended with one
   another. Both processors ask for V-blank all the time between. */
#include "told.h"

#if SEED == 9
#define DISPCNT PORT32(0x4000000)
#define BGCNT(n) PORT16(0x4000008 + 2 * (n))
#define BGHOFS(n) PORT16(0x4000010 + 4 * (n))
#define BGVOFS(n) PORT16(0x4000012 + 4 * (n))
#define BLDCNT PORT16(0x4000050)
#define BLDALPHA PORT16(0x4000052)
#define OAM ((volatile u16 *)0x7000000)
#define COLOURS ((volatile u16 *)0x5000000)

enum { OBJECTS = 40 };
static int x[OBJECTS], y[OBJECTS];

static void fill(volatile u16 *at, u32 count, u32 seed)
{
    for (u32 i = 0; i < count; i++) {
        seed = seed * 1664525 + 1013904223;
        at[i] = (u16)(seed >> 16);
    }
}

static void begin(void)
{
    PORT16(0x4000304) = 0x8203;
    PORT8(0x4000240) = 0x81; /* bank A for backgrounds, bank B for objects */
    PORT8(0x4000241) = 0x82;
    fill((volatile u16 *)0x6000000, 0x2000, 1);  /* tiles */
    fill((volatile u16 *)0x6400000, 0x4000, 2);
    for (u32 i = 0; i < 0xC00; i++)
        ((volatile u16 *)0x6008000)[i] = (u16)((i * 7 & 0x1FF) | (i & 0xF) << 12); /* maps */
    fill(COLOURS, 0x200, 3);
    for (int n = 0; n < 3; n++)
        BGCNT(n) = (u16)(n | (16 + n) << 8);
    BLDCNT = 0x0E41; /* background 0 over the others and the backdrop */
    BLDALPHA = 0x080A;
    DISPCNT = 0x00011710; /* mode 0, backgrounds 0 to 2, objects in one row of tiles */
    for (int n = 0; n < OBJECTS; n++) {
        x[n] = n * 37 % 240;
        y[n] = n * 53 % 180;
    }
    for (int n = OBJECTS; n < 128; n++)
        OAM[4 * n] = 0x200;
}

static void move(void)
{
    for (int n = 0; n < OBJECTS; n++) {
        int size = 1 + n % 3;
        x[n] = (x[n] + 1 + n % 3) % 250;
        y[n] = (y[n] + 1 + n % 2) % 190;
        OAM[4 * n] = (u16)(y[n] | (n % 3 == 0 ? 0x400 : 0));
        OAM[4 * n + 1] = (u16)(x[n] | size << 14);
        OAM[4 * n + 2] = (u16)(n * 8 % 0x200 | n % 4 << 10 | n % 16 << 12);
    }
    for (int n = 0; n < 3; n++) {
        BGHOFS(n) = (u16)(TOLD->frames * (u32)(n + 1));
        BGVOFS(n) = (u16)(TOLD->frames * (u32)(3 - n));
    }
}
#endif

int main(void)
{
#if SEED == 9
    begin();
    begin_telling();
#endif
    for (;;) {
        while (DISPSTAT & 1) {
        }
        while (!(DISPSTAT & 1)) {
        }
#if SEED == 9
        TOLD->frames++;
        TOLD->rounds++;
        move();
#endif
    }
}
