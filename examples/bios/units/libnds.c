/* Calls by libnds's names, which the linker's --wrap sends to the functions here: this is linked with @wrap.txt and no libnds. */
#include <stdint.h>

#include "../unit.h"

uint16_t swiCRC16(uint16_t begin, const void *data, uint32_t size);
int swiSqrt(int value);
int swiIsDebugger(void);
void swiChangeSoundBias(int enabled, int delay);
void swiDecompressRLEWram(void *source, void *target);

static uint32_t to[2];

int main(void)
{
    static uint8_t __attribute__((aligned(4))) runs[] = {0x30, 4, 0, 0, 0x81, 'z'};
    CHECK(swiCRC16(0xFFFF, "123456789", 9) == 0x4B37);
    CHECK(swiSqrt(144) == 12);
    CHECK(!swiIsDebugger());
    swiChangeSoundBias(1, 0x400);
    swiDecompressRLEWram(runs, to);
    CHECK(to[0] == 0x7A7A7A7A && !to[1]);
    PASSED();
}
