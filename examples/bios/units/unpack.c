/* Bits that are widened, worked by hand: B1h is the bits 1, 0, 0, 0, 1, 1, 0, 1 from the lowest on. */
#include "../bios.h"
#include "../unit.h"

static uint32_t to[2];

UNIT with_an_offset(void)
{
    static const uint8_t from[] = {0xB1, 0x02};
    bios_unpack(from, to, &(struct bios_unpacking){2, 1, 4, 5});
    CHECK(to[0] == 0x60660006);
    CHECK(to[1] == 0x00000060);
}

UNIT with_an_offset_of_zeros_too(void)
{
    static const uint8_t from[] = {0xB1};
    bios_unpack(from, to, &(struct bios_unpacking){1, 1, 4, 1u << 31 | 5});
    CHECK(to[0] == 0x65665556);
}

UNIT nibbles_to_bytes_and_bytes_to_words(void)
{
    static const uint8_t from[] = {0x21, 0x43};
    bios_unpack(from, to, &(struct bios_unpacking){2, 4, 8, 0});
    CHECK(to[0] == 0x04030201);
    bios_unpack(from, to, &(struct bios_unpacking){2, 8, 32, 0x100});
    CHECK(to[0] == 0x121 && to[1] == 0x143);
}

int main(void)
{
    with_an_offset();
    with_an_offset_of_zeros_too();
    nibbles_to_bytes_and_bytes_to_words();
    PASSED();
}
