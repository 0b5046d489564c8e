/* What each cartridge tells, in main memory: a mark that the measuring program looks for, the V-blanks that came, and what was done. */
typedef unsigned char u8;
typedef unsigned short u16;
typedef unsigned int u32;
typedef unsigned long long u64;

#define PORT8(at) (*(volatile u8 *)(at))
#define PORT16(at) (*(volatile u16 *)(at))
#define PORT32(at) (*(volatile u32 *)(at))
#define DISPSTAT PORT16(0x4000004)

struct told {
    u32 mark[4];
    u32 frames, rounds;
};
#define TOLD ((volatile struct told *)0x2300000)

static inline void begin_telling(void)
{
    TOLD->frames = TOLD->rounds = 0;
    TOLD->mark[0] = 0x43504552;
    for (int i = 1; i < 4; i++)
        TOLD->mark[i] = TOLD->mark[i - 1] * 5 + 1; /* worked out as it runs, so that the program itself doesn't have the mark */
}

/* Counts the V-blanks, where it is called more often than their half. */
static inline void look_for_frame(void)
{
    static u32 was;
    u32 is = DISPSTAT & 1;
    if (is && !was)
        TOLD->frames++;
    was = is;
}
