/* What is unpacked into video memory, to which ARM9 can't write bytes. */
#include "../bios.h"
#include "../unit.h"

#define VRAMCNT_A (*(volatile uint8_t *)0x4000240)
#define BANK_A ((volatile uint16_t *)0x6800000)

UNIT a_text_of_an_odd_length(void)
{
    static const uint8_t __attribute__((aligned(4))) from[] = {0x10, 7, 0, 0, 0x20, 'A', 'B', 0x20, 1};
    BANK_A[3] = 0x5A5A;
    CHECK(bios_lz77(from, (void *)BANK_A) == 7);
    CHECK(BANK_A[0] == 0x4241 && BANK_A[1] == 0x4241 && BANK_A[2] == 0x4241);
    CHECK(BANK_A[3] == 0x5A41);
}

int main(void)
{
    VRAMCNT_A = 0x80;
    a_text_of_an_odd_length();
    PASSED();
}
