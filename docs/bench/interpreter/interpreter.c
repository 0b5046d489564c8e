/* An interpreter of a small stack machine, for measuring speed: a larger program of compiled Thumb code with many calls, pushes and pops. Each
   operation is a function of its own, of which there are several with other constants, so that the code is larger than the decode cache's reach.
   It runs one program again and again and waits for nothing. */
typedef unsigned int u32;
typedef unsigned short u16;
typedef unsigned char u8;

#define WORDS 256

struct machine {
    u32 *top;           /* the stack grows up */
    const u8 *at;       /* the next byte of code */
    u32 locals[16];
    u32 cells[WORDS];
    u32 stack[64];
    u32 steps;
};

typedef void (*operation)(struct machine *);

static u32 mixed(u32 a, u32 b) { return (a ^ (b << 7)) + (a >> 3); }

__attribute__((noinline)) static u32 pop(struct machine *m) { return *--m->top; }
__attribute__((noinline)) static void push(struct machine *m, u32 value) { *m->top++ = value; }

/* operations of two words, of one, and of cells; N tells them apart */
#define FAMILY(N)                                                                                                            \
    static void add##N(struct machine *m) { u32 b = pop(m), a = pop(m); push(m, a + b + N); }                                \
    static void subtract##N(struct machine *m) { u32 b = pop(m), a = pop(m); push(m, a - b - N); }                           \
    static void multiply##N(struct machine *m) { u32 b = pop(m), a = pop(m); push(m, a * (b | N)); }                         \
    static void exclusive##N(struct machine *m) { u32 b = pop(m), a = pop(m); push(m, a ^ b ^ N); }                          \
    static void both##N(struct machine *m) { u32 b = pop(m), a = pop(m); push(m, (a & b) + N); }                             \
    static void shifted##N(struct machine *m) { u32 a = pop(m); push(m, (a << (N & 15)) | (a >> 5)); }                       \
    static void less##N(struct machine *m) { u32 b = pop(m), a = pop(m); push(m, a < b + N ? a : b); }                       \
    static void constant##N(struct machine *m) { push(m, *m->at++ * (N * 3 + 1)); }                                          \
    static void local##N(struct machine *m) { push(m, m->locals[N & 15]); }                                                  \
    static void keep##N(struct machine *m) { m->locals[N & 15] = pop(m); push(m, m->locals[(N + 1) & 15]); }                 \
    static void cell##N(struct machine *m) { u32 a = pop(m); push(m, m->cells[(a + N) % WORDS]); }                           \
    static void store##N(struct machine *m) { u32 b = pop(m), a = pop(m); m->cells[(a + N) % WORDS] = b; push(m, a); }       \
    static void bytes##N(struct machine *m)                                                                                  \
    {                                                                                                                        \
        u8 *text = (u8 *)m->cells;                                                                                           \
        u32 sum = N;                                                                                                         \
        for (u32 i = 0; i < 8; i++) { sum += text[(N * 8 + i) % (4 * WORDS)]; text[(N * 8 + i) % (4 * WORDS)] = (u8)sum; }   \
        push(m, pop(m) + sum);                                                                                               \
    }                                                                                                                        \
    static void halves##N(struct machine *m)                                                                                 \
    {                                                                                                                        \
        u16 *text = (u16 *)m->cells;                                                                                         \
        u32 sum = N;                                                                                                         \
        for (u32 i = 0; i < 4; i++) sum = mixed(sum, text[(N * 4 + i) % (2 * WORDS)]);                                       \
        text[N % (2 * WORDS)] = (u16)sum;                                                                                    \
        push(m, pop(m) ^ sum);                                                                                               \
    }                                                                                                                        \
    static void chosen##N(struct machine *m)                                                                                 \
    {                                                                                                                        \
        u32 a = pop(m);                                                                                                      \
        switch ((a >> 4) & 7) {                                                                                                     \
        case 0: push(m, a + N); break;                                                                                       \
        case 1: push(m, mixed(a, N)); break;                                                                                 \
        case 2: push(m, m->locals[a % 16]); break;                                                                           \
        case 3: push(m, m->cells[N % WORDS] - a); break;                                                                     \
        case 4: push(m, a >> 9); break;                                                                                      \
        case 5: push(m, ~a); break;                                                                                          \
        default: push(m, a * 13 + m->steps); break;                                                                          \
        }                                                                                                                    \
    }
#define KINDS 15
#define TABLE(N)                                                                                                             \
    add##N, subtract##N, multiply##N, exclusive##N, both##N, shifted##N, less##N, constant##N, local##N, keep##N, cell##N,   \
        store##N, bytes##N, halves##N, chosen##N,

#ifdef SMALL
#define ALL(EACH) EACH(1) EACH(2) EACH(3) EACH(4)
#define FAMILIES 4
#else
#define TEN(EACH, T) EACH(T##0) EACH(T##1) EACH(T##2) EACH(T##3) EACH(T##4) EACH(T##5) EACH(T##6) EACH(T##7) EACH(T##8) EACH(T##9)
#define ALL(EACH) TEN(EACH, 1) TEN(EACH, 2) TEN(EACH, 3) TEN(EACH, 4) TEN(EACH, 5) TEN(EACH, 6) TEN(EACH, 7)
#define FAMILIES 70
#endif

ALL(FAMILY)

static const operation operations[] = { ALL(TABLE) };
/* how many words an operation of a kind takes */
static const u8 taken[KINDS] = { 2, 2, 2, 2, 2, 1, 2, 0, 0, 1, 1, 2, 1, 1, 1 };

static struct machine machine;
/* A row of code: the operation's number as a half, then its byte, where it is a constant. */
static u16 code[2048];
static u8 numbers[2048];

/* twenty bits */
static u32 next_number(u32 *seed)
{
    *seed = *seed * 1664525u + 1013904223u;
    return *seed >> 12;
}

/* A program by chance that keeps 2 to 40 words on the stack. */
static void made(u32 seed)
{
    u32 depth = 2;
    for (u32 i = 0; i < 2048; i++) {
        u32 kind;
        do {
            kind = next_number(&seed) * KINDS >> 20;
        } while (taken[kind] == 2 ? depth < 4 : taken[kind] == 0 && depth > 38);
        if (taken[kind] == 2)
            depth--;
        else if (taken[kind] == 0)
            depth++;
        code[i] = (u16)((next_number(&seed) * FAMILIES >> 20) * KINDS + kind);
        numbers[i] = (u8)next_number(&seed);
    }
}

__attribute__((noinline)) static void run(struct machine *m)
{
    for (u32 i = 0; i < 2048; i++) {
        m->at = &numbers[i];
        operations[code[i]](m);
        m->steps++;
    }
}

int main(void)
{
    made(SEED);
    for (;;) {
        machine.top = machine.stack;
        push(&machine, machine.steps);
        push(&machine, 1);
        run(&machine);
    }
}
