/* Reads files of its cartridge while it runs: it finds them by name in the tables that make-cart writes, and takes their words from the card,
   once by loads and once by a DMA channel. docs/PROGRAMS.md has the ports and the bits, "The card". */
typedef unsigned char u8;
typedef unsigned short u16;
typedef unsigned int u32;

#define DMA0SAD (*(volatile u32 *)0x40000B0)
#define DMA0DAD (*(volatile u32 *)0x40000B4)
#define DMA0CNT (*(volatile u32 *)0x40000B8)
#define AUXSPICNT (*(volatile u16 *)0x40001A0)
#define ROMCTRL (*(volatile u32 *)0x40001A4)
#define COMMAND ((volatile u8 *)0x40001A8)
#define IF (*(volatile u32 *)0x4000214)
#define CARD_DATA (*(volatile u32 *)0x4100010)
/* the header's copy, which tells where the tables are: the card gives no byte below 8000h */
#define NAMES (*(volatile u32 *)0x27FFE40)
#define PLACES (*(volatile u32 *)0x27FFE48)

#define START 0x80000000u
#define BUSY 0x80000000u
#define READY 0x00800000u
#define BLOCK 0x200u
#define BLOCK_OF_200 0x01000000u
#define TELLS_END 0x4000u
#define CARD_ENDED (1u << 19)
/* a word each time one is ready: the source stays, the target goes up, again and again */
#define CARD_DMA 0xAF000001u

/* What the test looks at. */
char greeting[32];
int number = -2;    /* of levels/two.txt */
int size = -2;      /* and its length */
u32 sum;            /* of its bytes */
int missing = -2;   /* the number of a file that isn't there */
u32 by_loads;       /* blocks that came by loads */
u32 by_channel;     /* and by the channel */
u32 ended;          /* 1 when all is done */

static u32 held[BLOCK / 4];
static u32 held_at = 1;

/* Command B7h, which reads from a place of the file on: the place's highest byte comes first. */
static void ask(u32 place)
{
    COMMAND[0] = 0xB7;
    COMMAND[1] = (u8)(place >> 24);
    COMMAND[2] = (u8)(place >> 16);
    COMMAND[3] = (u8)(place >> 8);
    COMMAND[4] = (u8)place;
}

/* A block by loads: a word each time that one is ready, until the transfer is over. */
static void take_by_loads(u32 place, u32 *to)
{
    ask(place);
    ROMCTRL = START | BLOCK_OF_200;
    do {
        if (ROMCTRL & READY)
            *to++ = CARD_DATA;
    } while (ROMCTRL & BUSY);
    by_loads++;
}

/* A block by channel 0, whose end is told by the interrupt's bit. The channel sees neither ITCM nor DTCM. */
static void take_by_channel(u32 place, u32 *to)
{
    ask(place);
    AUXSPICNT = TELLS_END;
    IF = CARD_ENDED;
    DMA0SAD = (u32)&CARD_DATA;
    DMA0DAD = (u32)to;
    DMA0CNT = CARD_DMA;
    ROMCTRL = START | BLOCK_OF_200;
    while (!(IF & CARD_ENDED)) {
    }
    DMA0CNT = 0;
    by_channel++;
}

static u32 byte_at(u32 place)
{
    u32 first = place / BLOCK * BLOCK;
    if (held_at != first) {
        take_by_loads(first, held);
        held_at = first;
    }
    return ((u8 *)held)[place - first];
}

static u32 half_at(u32 place)
{
    return byte_at(place) | byte_at(place + 1) << 8;
}

static u32 word_at(u32 place)
{
    return half_at(place) | half_at(place + 2) << 16;
}

/* Whether a name of the table is the path's first part; then where the path goes on, otherwise nothing. */
static const char *past_name(const char *path, u32 place, u32 length)
{
    for (u32 i = 0; i < length; i++) {
        if (path[i] == 0 || (u8)path[i] != byte_at(place + i))
            return 0;
    }
    return path[length] == 0 || path[length] == '/' ? path + length : 0;
}

/* The number of a file, or -1. A folder's row has where its list begins and its first file's number; in the list a name's length stands before it,
   with bit 7 where it is a folder's, whose number comes behind. */
static int find(const char *path)
{
    u32 row = NAMES;
    u32 at = NAMES + word_at(row);
    u32 file = half_at(row + 4);
    for (u32 kind = byte_at(at); kind != 0; kind = byte_at(at)) {
        u32 length = kind & 0x7F;
        const char *rest = past_name(path, at + 1, length);
        at += 1 + length;
        if (kind & 0x80) {
            if (rest && *rest == '/') {
                path = rest + 1;
                row = NAMES + 8 * (half_at(at) & 0xFFF);
                at = NAMES + word_at(row);
                file = half_at(row + 4);
                continue;
            }
            at += 2;
        } else {
            if (rest && *rest == 0)
                return (int)file;
            file++;
        }
    }
    return -1;
}

static u32 first_of(int file) { return word_at(PLACES + 8 * (u32)file); }
static u32 end_of(int file) { return word_at(PLACES + 8 * (u32)file + 4); }

/* A text by bytes, which come by loads. */
static void read_text(int file, char *to, u32 room)
{
    u32 from = first_of(file), end = end_of(file);
    while (from < end && room > 1) {
        *to++ = (char)byte_at(from++);
        room--;
    }
    *to = 0;
}

/* The sum of a file's bytes, which come by the channel, block by block. */
static u32 sum_of(int file)
{
    static u32 block[BLOCK / 4];
    u32 from = first_of(file), end = end_of(file), all = 0;
    for (; from < end; from += BLOCK) {
        take_by_channel(from, block);
        for (u32 i = 0; i < BLOCK && from + i < end; i++)
            all += ((u8 *)block)[i];
    }
    return all;
}

int main(void)
{
    number = find("levels/two.txt");
    size = (int)(end_of(number) - first_of(number));
    sum = sum_of(number);
    read_text(find("hello.txt"), greeting, sizeof greeting);
    missing = find("levels/three.txt");
    ended = 1;
    for (;;)
        __asm__ volatile("mcr p15, 0, r0, c7, c0, 4");
}
