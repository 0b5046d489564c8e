/* ARM9: a square that the arrows move and that takes coins; X makes it run. Each result that a test looks at has a name of its own. */
#include "ports.h"

/* DTCM lies where the linker script says. Its last words are the boot ROM's: the flags of interrupts that came, and the handler. */
extern volatile u32 __dtcm_start[0x1000];
#define FLAGS __dtcm_start[0xFFE]
#define HANDLER (&__dtcm_start[0xFFF])

#define POWCNT1 PORT16(0x4000304)
#define DISPCNT_A PORT32(0x4000000)
#define DISPCNT_B PORT32(0x4001000)
#define VRAMCNT_A PORT8(0x4000240)
#define PALETTE ((volatile u16 *)0x5000000)
#define TILES ((volatile u32 *)0x6400000)
#define OBJECTS ((volatile u16 *)0x7000000)

enum { RIGHT = 1 << 4, LEFT = 1 << 5, UP = 1 << 6, DOWN = 1 << 7 };
enum { WIDE = 256, HIGH = 192, SIDE = 8 };

struct place {
    int x, y;
};

struct place player = {120, 92};
struct place coin = {200, 92};
u32 score;
u32 frames;
char message[16];

static u32 seed = 1;

static void on_interrupt(void)
{
    u32 asked = IE & IF;
    IF = asked;
    FLAGS |= asked;
}

static int within(int value, int most)
{
    return value < 0 ? 0 : value > most ? most : value;
}

static u32 draw(u32 below)
{
    seed = seed * 1664525u + 1013904223u;
    return (seed >> 16) * below >> 16;
}

/* Writes "coins N" for N below 100. */
static void tell(u32 number)
{
    static const char begin[] = "coins ";
    u32 at = 0, tens = 0;
    while (begin[at]) {
        message[at] = begin[at];
        at++;
    }
    while (number >= 10) {
        number -= 10;
        tens++;
    }
    if (tens)
        message[at++] = (char)('0' + tens);
    message[at++] = (char)('0' + number);
    message[at] = 0;
}

static void begin_screens(void)
{
    POWCNT1 = 0x8203;
    VRAMCNT_A = 0x82; /* enabled, for the objects of engine A */
    for (int it = 0; it < 8; it++) {
        TILES[it] = 0x11111111;
        TILES[8 + it] = 0x22222222;
    }
    PALETTE[0] = 0x2108;        /* the upper screen's backdrop */
    PALETTE[0x100 + 1] = 0x03FF; /* colours of objects: 1 the player, 2 the coin */
    PALETTE[0x100 + 2] = 0x7FE0;
    PALETTE[0x200] = 0x0010; /* the lower screen's backdrop */
    for (int it = 0; it < 128; it++)
        OBJECTS[4 * it] = 1 << 9; /* off */
    DISPCNT_A = 1 << 16 | 1 << 12 | 1 << 4;
    DISPCNT_B = 1 << 16;
}

static void put(int number, struct place at, int tile)
{
    OBJECTS[4 * number] = (u16)at.y;
    OBJECTS[4 * number + 1] = (u16)at.x;
    OBJECTS[4 * number + 2] = (u16)tile;
}

static int is_near(int a, int b)
{
    int apart = a - b;
    return -SIDE < apart && apart < SIDE;
}

static void step(u32 keys, int speed)
{
    player.x = within(player.x + speed * (!!(keys & RIGHT) - !!(keys & LEFT)), WIDE - SIDE);
    player.y = within(player.y + speed * (!!(keys & DOWN) - !!(keys & UP)), HIGH - SIDE);
    if (is_near(player.x, coin.x) && is_near(player.y, coin.y)) {
        score++;
        coin.x = (int)draw(WIDE - SIDE);
        coin.y = (int)draw(HIGH - SIDE);
    }
}

int main(void)
{
    begin_screens();
    begin_interrupts(HANDLER, on_interrupt);
    for (;;) {
        tell(score);
        put(0, player, 0);
        put(1, coin, 1);
        wait_for_vblank();
        frames++;
        step(~KEYINPUT, IPCSYNC & 1 ? 2 : 1); /* bit 0 is X, which ARM7 passes on */
    }
}
