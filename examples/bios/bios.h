/* Own versions of the boot ROM's functions that the stub hasn't, to be compiled into a program. GBATEK, "BIOS Functions", has the formats.

   Each writes whole halves or words, so that the target may be video memory, palettes or object attributes of ARM9 too. Sources that are packed
   begin with a word: the kind in bits 4 to 7, the unpacked size in bytes in bits 8 to 31. They have to lie in memory, at a multiple of 4; a target
   lies at a multiple of 4 too. What unpacks returns how many bytes it wrote, and 0, with nothing written, where the kind is another one. */
#ifndef BIOS_H
#define BIOS_H

#include <stdint.h>

/* How bios_unpack reads and writes: `size` bytes of units of `from` bits (1, 2, 4, 8) become units of `to` bits (1 to 32, a power of 2). Bits 0 to 30
   of `offset` are added to each unit that isn't 0, and where bit 31 is set to each. */
struct bios_unpacking {
    uint16_t size;
    uint8_t from, to;
    uint32_t offset;
};

/* 0Ch: copies words, as many as bits 0 to 20 of `control` tell; where its bit 24 is set each is the source's first one. */
void bios_fast_set(const void *source, void *target, uint32_t control);
/* 0Dh: the square root, rounded down. */
uint32_t bios_sqrt(uint32_t square);
/* 0Eh: CRC-16 with the polynomial A001h, going on from `sum`. */
uint16_t bios_crc16(uint16_t sum, const void *data, uint32_t size);
/* 10h: widens units of bits. */
void bios_unpack(const void *source, void *target, const struct bios_unpacking *how);
/* 11h, 12h: LZ77. */
uint32_t bios_lz77(const void *source, void *target);
/* 13h: Huffman codes of 4 or 8 bits; whole words are written. */
uint32_t bios_huffman(const void *source, void *target);
/* 14h, 15h: runs of equal bytes. */
uint32_t bios_rle(const void *source, void *target);
/* 16h, 18h: differences of bytes, and of halves. */
uint32_t bios_diff8(const void *source, void *target);
uint32_t bios_diff16(const void *source, void *target);

#endif
