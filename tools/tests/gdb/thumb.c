/* For test_gdb.py: ARM9 in Thumb and ARM code, in a loop. With STOPS defined it comes to what is left out, the boot ROM's function 99h. */
typedef unsigned int u32;

struct pair {
    int a, b;
};

volatile u32 total, rounds;
struct pair pair = {1, 2};

__attribute__((noinline, target("thumb"))) static int thumb_add(int a, int b)
{
    int c = a + b;
    pair.a = c;
    return c;
}

__attribute__((noinline, target("arm"))) static int arm_mul(int a, int b)
{
    int c = a * b;
    pair.b = c;
    return c;
}

__attribute__((noinline, target("thumb"))) static int thumb_both(int n)
{
    int s = 0;
    for (int i = 0; i < n; i++) {
        s += thumb_add(i, 1);
        s += arm_mul(i, 2);
    }
    return s;
}

int main(void)
{
    for (;;) {
        total += thumb_both(3);
        rounds++;
#ifdef STOPS
        if (rounds == 100)
            __asm__ volatile("swi 0x990000" ::: "lr");
#endif
    }
}
