/* ARM9: a square that the arrows move. Every eighth frame it leaves a mark where it is, and the last eight of these stay. There is a fault in
   this game, which docs/DEBUGGING.md finds. */
#include "ports.h"

/* DTCM lies where the linker script says. Its last words are the boot ROM's: the flags of interrupts that came, and the handler. */
extern volatile u32 __dtcm_start[0x1000];
#define FLAGS __dtcm_start[0xFFE]
#define HANDLER (&__dtcm_start[0xFFF])

#define POWCNT1 PORT16(0x4000304)
#define DISPCNT_A PORT32(0x4000000)
#define VRAMCNT_A PORT8(0x4000240)
#define PALETTE ((volatile u16 *)0x5000000)
#define TILES ((volatile u32 *)0x6400000)
#define OBJECTS ((volatile u16 *)0x7000000)

enum { RIGHT = 1 << 4, LEFT = 1 << 5, UP = 1 << 6, DOWN = 1 << 7 };
enum { WIDE = 256, HIGH = 192, SIDE = 8, MARKS = 8 };

struct place {
    int x, y;
};

struct game {
    struct place player;
    struct place marks[MARKS];
    int lives;
    int next; /* which mark comes next */
};

struct game game = {.player = {20, 40}, .lives = 3};
u32 frames;

static void on_interrupt(void)
{
    u32 asked = IE & IF;
    IF = asked;
    FLAGS |= asked;
}

static int within(int value, int most)
{
    return value < 0 ? 0 : value > most ? most : value;
}

static void begin_screens(void)
{
    POWCNT1 = 0x8203;
    VRAMCNT_A = 0x82; /* enabled, for the objects of engine A */
    for (int it = 0; it < 8; it++) {
        TILES[it] = 0x11111111;
        TILES[8 + it] = 0x22222222;
    }
    PALETTE[0] = 0x2108;
    PALETTE[0x100 + 1] = 0x03FF; /* colours of objects: 1 the player, 2 a mark */
    PALETTE[0x100 + 2] = 0x7FE0;
    for (int it = 0; it < 128; it++)
        OBJECTS[4 * it] = 1 << 9; /* off */
    DISPCNT_A = 1 << 16 | 1 << 12 | 1 << 4;
}

static void put(int number, struct place at, int tile)
{
    OBJECTS[4 * number] = (u16)at.y;
    OBJECTS[4 * number + 1] = (u16)at.x;
    OBJECTS[4 * number + 2] = (u16)tile;
}

static void show(void)
{
    put(0, game.player, 0);
    for (int it = 0; it < MARKS; it++)
        put(1 + it, game.marks[it], 1);
}

static void leave_mark(void)
{
    if (game.next > MARKS)
        game.next = 0;
    game.marks[game.next] = game.player;
    game.next++;
}

static void step(u32 keys)
{
    game.player.x = within(game.player.x + !!(keys & RIGHT) - !!(keys & LEFT), WIDE - SIDE);
    game.player.y = within(game.player.y + !!(keys & DOWN) - !!(keys & UP), HIGH - SIDE);
    if (frames % 8 == 0)
        leave_mark();
}

int main(void)
{
    begin_screens();
    begin_interrupts(HANDLER, on_interrupt);
    for (;;) {
        show();
        wait_for_vblank();
        frames++;
        step(~KEYINPUT);
    }
}
