/* The same functions by libnds's names, for the linker's --wrap: @wrap.txt among its words sends each call of swiCRC16 and of the others here, those of
   libnds's own code too. Functions that take a stream of callbacks there read memory here. */
#include "bios.h"

uint16_t __wrap_swiCRC16(uint16_t begin, const void *data, uint32_t size)
{
    return bios_crc16(begin, data, size);
}

void __wrap_swiFastCopy(const void *source, void *target, int flags)
{
    bios_fast_set(source, target, (uint32_t)flags);
}

int __wrap_swiSqrt(int value)
{
    return (int)bios_sqrt((uint32_t)value);
}

void __wrap_swiUnpackBits(uint8_t *source, uint32_t *target, struct bios_unpacking *how)
{
    bios_unpack(source, target, how);
}

void __wrap_swiDecompressLZSSWram(void *source, void *target)
{
    bios_lz77(source, target);
}

int __wrap_swiDecompressLZSSVram(void *source, void *target, uint32_t given, void *stream)
{
    (void)given;
    (void)stream;
    return (int)bios_lz77(source, target);
}

int __wrap_swiDecompressHuffman(void *source, void *target, uint32_t given, void *stream)
{
    (void)given;
    (void)stream;
    return (int)bios_huffman(source, target);
}

void __wrap_swiDecompressRLEWram(void *source, void *target)
{
    bios_rle(source, target);
}

int __wrap_swiDecompressRLEVram(void *source, void *target, uint32_t given, void *stream)
{
    (void)given;
    (void)stream;
    return (int)bios_rle(source, target);
}

void __wrap_swiDecodeDelta8(void *source, void *target)
{
    bios_diff8(source, target);
}

void __wrap_swiDecodeDelta16(void *source, void *target)
{
    bios_diff16(source, target);
}

int __wrap_swiIsDebugger(void)
{
    return 0;
}

/* ARM7's 08h, which moves the sound's bias level: sound is silent here. */
void __wrap_swiChangeSoundBias(int enabled, int delay)
{
    (void)enabled;
    (void)delay;
}
