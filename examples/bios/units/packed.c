/* LZ77, runs, Huffman codes and differences, packed by hand. */
#include "../bios.h"
#include "../unit.h"

#define PACKED static const uint8_t __attribute__((aligned(4)))

static uint8_t __attribute__((aligned(4))) to[16];

static int is_text(const char *text)
{
    int at = 0;
    for (; text[at]; at++)
        if (to[at] != (uint8_t)text[at])
            return 0;
    return 1;
}

/* A, B, and six bytes from two bytes ago; then one from five ago, of which the size leaves two. */
UNIT pieces_come_again(void)
{
    PACKED from[] = {0x10, 11, 0, 0, 0x28, 'A', 'B', 0x30, 1, 'C', 0xF0, 4};
    CHECK(bios_lz77(from, to) == 11);
    CHECK(is_text("ABABABABCAB"));
    CHECK(to[11] == 0);
}

/* One byte that comes again from the byte before it, which waits for its half. */
UNIT a_byte_comes_again_at_once(void)
{
    PACKED from[] = {0x10, 5, 0, 0, 0x40, 'x', 0x10, 0};
    CHECK(bios_lz77(from, to) == 5);
    CHECK(is_text("xxxxxBABCAB"));
}

UNIT runs(void)
{
    PACKED from[] = {0x30, 8, 0, 0, 0x82, 'y', 0x02, 'a', 'b', 'c'};
    CHECK(bios_rle(from, to) == 8);
    CHECK(is_text("yyyyyabcCAB"));
}

/* Two leaves below the root, a by 0 and b by 1: the codes 0110 0001 .. from bit 31 on. */
UNIT codes(void)
{
    PACKED from[] = {0x28, 8, 0, 0, 1, 0xC0, 'a', 'b', 0, 0, 0, 0x61};
    CHECK(bios_huffman(from, to) == 8);
    CHECK(is_text("abbaaaab"));
}

/* The root has a leaf (1 by 0) and a node with two (2 by 10, 3 by 11), of 4 bits each: 0, 10, 11, 0, 0, 0, 0, 10. */
UNIT codes_of_nibbles(void)
{
    PACKED from[] = {0x24, 4, 0, 0, 3, 0x80, 1, 0xC0, 2, 3, 0, 0, 0, 0, 0x40, 0x58};
    CHECK(bios_huffman(from, to) == 4);
    CHECK(to[0] == 0x21 && to[1] == 0x13 && to[2] == 0x11 && to[3] == 0x21);
}

UNIT differences(void)
{
    PACKED bytes[] = {0x81, 4, 0, 0, 'a', 1, 1, 0xFE};
    PACKED halves[] = {0x82, 4, 0, 0, 0x30, 0x31, 0x02, 0x01};
    CHECK(bios_diff8(bytes, to) == 4);
    CHECK(is_text("abca"));
    CHECK(bios_diff16(halves, to) == 4);
    CHECK(is_text("0122"));
}

UNIT another_kind_is_nothing(void)
{
    PACKED from[] = {0x50, 8, 0, 0, 0, 0xC0, 'a', 'b', 0, 0, 0, 0};
    CHECK(bios_lz77(from, to) == 0 && bios_rle(from, to) == 0 && bios_huffman(from, to) == 0 && bios_diff8(from, to) == 0 && bios_diff16(from, to) == 0);
    CHECK(is_text("0122"));
}

int main(void)
{
    pieces_come_again();
    a_byte_comes_again_at_once();
    runs();
    codes();
    codes_of_nibbles();
    differences();
    another_kind_is_nothing();
    PASSED();
}
