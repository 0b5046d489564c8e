/* For test_gdb.py: ARM9 adds in a loop, and a timer interrupts it every 256 clocks of the bus. */
#include "ports.h"

#define TIMER PORT32(0x4000100)

extern volatile u32 __dtcm_start[0x1000];
volatile u32 ticks, sum;

static void on_timer(void)
{
    IF = IF;
    ticks++;
}

static void add(u32 by)
{
    sum += by;
    sum ^= 1;
}

int main(void)
{
    __dtcm_start[0xFFF] = (u32)on_timer;
    TIMER = 0xC0FF00;
    IE = 1 << 3;
    IME = 1;
    __asm__ volatile("msr cpsr_c, #0x1f" ::: "memory");
    for (;;) {
        add(1);
        add(2);
        add(3);
        sum = sum * 3;
    }
}
