/* For test_gdb.py: ARM7 counts in a loop. */
typedef unsigned int u32;

volatile u32 count;

__attribute__((noinline)) static void more(u32 by)
{
    count += by;
}

int main(void)
{
    for (;;)
        more(3);
}
