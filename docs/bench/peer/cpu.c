/* Both processors compute, in main memory and without a port: random words, a checksum of bytes, a sort, long products and a small
   interpreter with a table of operations. ARM9 looks for V-blank once a round. */
#include "told.h"

enum { WORDS = 64 };
static u32 words[WORDS];
static u16 halves[WORDS];
u64 sums[2];

static u32 next(u32 x)
{
    x ^= x << 13;
    x ^= x >> 17;
    return x ^ x << 5;
}

static u32 checksum(const u8 *bytes, u32 count)
{
    u32 sum = ~0u;
    while (count--) {
        sum ^= *bytes++;
        for (int bit = 0; bit < 4; bit++)
            sum = sum & 1 ? sum >> 1 ^ 0xEDB88320 : sum >> 1;
    }
    return ~sum;
}

static void sort(u16 *first, int count)
{
    for (int i = 1; i < count; i++) {
        u16 it = first[i];
        int j = i;
        for (; j && first[j - 1] > it; j--)
            first[j] = first[j - 1];
        first[j] = it;
    }
}

static u32 add(u32 a, u32 b) { return a + b; }
static u32 turn(u32 a, u32 b) { return a << (b & 31) | a >> (31 - (b & 31)); }
static u32 mixed(u32 a, u32 b) { return a ^ b * 5; }
static u32 less(u32 a, u32 b) { return a - b; }
static u32 (*const operations[4])(u32, u32) = {add, turn, mixed, less};

static u32 interpret(const u32 *program, int count)
{
    u32 value = 1;
    for (int i = 0; i < count; i++)
        value = operations[program[i] >> 30](value, program[i]);
    return value;
}

int main(void)
{
    u32 seed = SEED;
#if SEED == 9
    begin_telling();
#endif
    for (;;) {
        for (int i = 0; i < WORDS; i++) {
            seed = next(seed);
            words[i] = seed;
            halves[i] = (u16)seed;
            sums[i & 1] += (u64)seed * words[WORDS - 1 - i];
        }
        seed ^= checksum((const u8 *)words, 64);
        sort(halves, 24);
        seed += interpret(words, WORDS) | 1;
        if (!seed)
            seed = SEED;
#if SEED == 9
        TOLD->rounds++;
        look_for_frame();
#endif
    }
}
