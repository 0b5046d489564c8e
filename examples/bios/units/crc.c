/* The sums of "123456789" that catalogues of CRCs give for CRC-16/ARC (from 0) and CRC-16/MODBUS (from FFFFh). */
#include "../bios.h"
#include "../unit.h"

static const char digits[] = "123456789";

UNIT sums_of_the_digits(void)
{
    CHECK(bios_crc16(0, digits, 9) == 0xBB3D);
    CHECK(bios_crc16(0xFFFF, digits, 9) == 0x4B37);
}

UNIT a_sum_goes_on(void)
{
    CHECK(bios_crc16(bios_crc16(0xFFFF, digits, 4), digits + 4, 5) == 0x4B37);
    CHECK(bios_crc16(0x1234, digits, 0) == 0x1234);
}

int main(void)
{
    sums_of_the_digits();
    a_sum_goes_on();
    PASSED();
}
