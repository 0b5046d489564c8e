/* Square roots around whole squares, and words that are copied and filled. */
#include "../bios.h"
#include "../unit.h"

static uint32_t words[6];

UNIT roots(void)
{
    CHECK(bios_sqrt(0) == 0);
    CHECK(bios_sqrt(1) == 1);
    CHECK(bios_sqrt(99) == 9);
    CHECK(bios_sqrt(100) == 10);
    CHECK(bios_sqrt(0x40000000) == 0x8000);
    CHECK(bios_sqrt(0xFFFE0000) == 0xFFFE);
    CHECK(bios_sqrt(0xFFFE0001) == 0xFFFF);
    CHECK(bios_sqrt(0xFFFFFFFF) == 0xFFFF);
}

UNIT copies(void)
{
    static const uint32_t from[] = {1, 2, 3, 4};
    bios_fast_set(from, words + 1, 3);
    CHECK(words[0] == 0 && words[1] == 1 && words[2] == 2 && words[3] == 3 && words[4] == 0);
}

UNIT fills(void)
{
    static const uint32_t from[] = {7, 8};
    bios_fast_set(from, words, 1 << 24 | 5);
    CHECK(words[0] == 7 && words[1] == 7 && words[4] == 7 && words[5] == 0);
    bios_fast_set(from + 1, words, 0);
    CHECK(words[0] == 7);
}

int main(void)
{
    roots();
    copies();
    fills();
    PASSED();
}
