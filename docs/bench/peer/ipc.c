/* Both processors poll the FIFOs and answer each word that comes, while four timers of each run. */
#include "told.h"

#define FIFOCNT PORT16(0x4000184)
#define SEND PORT32(0x4000188)
#define RECEIVE PORT32(0x4100000)
#define TIMER(n) PORT32(0x4000100 + 4 * (n))

int main(void)
{
    u32 value = SEED;
    FIFOCNT = 0xC008; /* FIFOs are on, errors are acknowledged, and what was to be sent is dropped */
    for (int n = 0; n < 4; n++)
        TIMER(n) = 0x00800000u | (u32)n << 16 | (u32)(0x10000 - 0x1000);
#if SEED == 9
    begin_telling();
    SEND = value;
#endif
    for (;;) {
        if (!(FIFOCNT & 0x100)) {
            value = RECEIVE * 1664525 + SEED;
            while (FIFOCNT & 2) {
            }
            SEND = value;
#if SEED == 9
            TOLD->rounds++;
#endif
        }
#if SEED == 9
        look_for_frame();
#endif
    }
}
