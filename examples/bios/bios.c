/* See bios.h. Targets are volatile, so that a compiler leaves each write as wide as it stands. */
#include "bios.h"

enum { LZ77 = 1, HUFFMAN = 2, RUNS = 3, DIFFERENCES = 8 };

/* Bytes that are written as halves: an even one waits for the one behind it. */
struct halves {
    volatile uint16_t *target;
    uint32_t count;
    uint8_t waiting;
};

static void put(struct halves *to, uint8_t byte)
{
    if (to->count & 1)
        to->target[to->count >> 1] = (uint16_t)(byte << 8 | to->waiting);
    else
        to->waiting = byte;
    to->count++;
}

/* The byte that was put `back` bytes ago, 1 being the last one. */
static uint8_t put_before(const struct halves *to, uint32_t back)
{
    uint32_t at = to->count - back;
    if (back == 1 && to->count & 1)
        return to->waiting;
    return (uint8_t)(to->target[at >> 1] >> 8 * (at & 1));
}

/* Writes a last byte that waits, and leaves the one behind it. */
static uint32_t ended(struct halves *to)
{
    volatile uint16_t *last = to->target + (to->count >> 1);
    if (to->count & 1)
        *last = (uint16_t)((*last & 0xFF00) | to->waiting);
    return to->count;
}

static int is_kind(const uint8_t *from, int kind)
{
    return from[0] >> 4 == kind;
}

static uint32_t size_of(const uint8_t *from)
{
    return from[1] | (uint32_t)from[2] << 8 | (uint32_t)from[3] << 16;
}

static uint32_t word_of(const uint8_t *from)
{
    return from[0] | (uint32_t)from[1] << 8 | (uint32_t)from[2] << 16 | (uint32_t)from[3] << 24;
}

void bios_fast_set(const void *source, void *target, uint32_t control)
{
    const uint32_t *from = source;
    volatile uint32_t *to = target;
    uint32_t step = ~control >> 24 & 1;
    for (uint32_t left = control & 0x1FFFFF; left; left--) {
        *to++ = *from;
        from += step;
    }
}

uint32_t bios_sqrt(uint32_t square)
{
    uint32_t root = 0;
    for (uint32_t bit = 1u << 15; bit; bit >>= 1)
        if ((root | bit) * (root | bit) <= square)
            root |= bit;
    return root;
}

uint16_t bios_crc16(uint16_t sum, const void *data, uint32_t size)
{
    const uint8_t *from = data;
    while (size--) {
        sum ^= *from++;
        for (int bit = 0; bit < 8; bit++)
            sum = (uint16_t)(sum & 1 ? sum >> 1 ^ 0xA001 : sum >> 1);
    }
    return sum;
}

void bios_unpack(const void *source, void *target, const struct bios_unpacking *how)
{
    const uint8_t *from = source;
    volatile uint32_t *to = target;
    uint32_t word = 0;
    unsigned filled = 0;
    for (uint32_t bit = 0; bit < how->size * 8u; bit += how->from) {
        uint32_t unit = from[bit >> 3] >> (bit & 7) & ((1u << how->from) - 1);
        if (unit || how->offset >> 31)
            unit += how->offset & 0x7FFFFFFF;
        word |= unit << filled;
        filled += how->to;
        if (filled >= 32) {
            *to++ = word;
            word = filled = 0;
        }
    }
}

uint32_t bios_lz77(const void *source, void *target)
{
    const uint8_t *from = source;
    uint32_t size = is_kind(from, LZ77) ? size_of(from) : 0;
    struct halves to = {target, 0, 0};
    unsigned left = 0, flags = 0;
    from += 4;
    while (to.count < size) {
        if (!left) {
            flags = *from++;
            left = 8;
        }
        if (!(flags >> --left & 1)) {
            put(&to, *from++);
            continue;
        }
        uint32_t back = ((uint32_t)(from[0] & 15) << 8 | from[1]) + 1;
        for (uint32_t more = (from[0] >> 4) + 3; more && to.count < size; more--)
            put(&to, put_before(&to, back));
        from += 2;
    }
    return ended(&to);
}

uint32_t bios_huffman(const void *source, void *target)
{
    enum { TREE = 4, ROOT = 5 };
    const uint8_t *from = source, *stream = from + TREE + 2 * (from[TREE] + 1);
    volatile uint32_t *to = target;
    uint32_t size = is_kind(from, HUFFMAN) ? size_of(from) : 0, written = 0, node = ROOT, codes = 0, word = 0;
    unsigned left = 0, filled = 0, wide = from[0] & 15;
    while (written < size) {
        if (!left) {
            codes = word_of(stream);
            stream += 4;
            left = 32;
        }
        unsigned which = codes >> --left & 1;
        int is_value = from[node] >> (7 - which) & 1;
        node = (node & ~1u) + (from[node] & 0x3F) * 2 + 2 + which;
        if (!is_value)
            continue;
        word |= (uint32_t)from[node] << filled;
        filled += wide;
        node = ROOT;
        if (filled >= 32) {
            *to++ = word;
            word = filled = 0;
            written += 4;
        }
    }
    return written;
}

uint32_t bios_rle(const void *source, void *target)
{
    const uint8_t *from = source;
    uint32_t size = is_kind(from, RUNS) ? size_of(from) : 0;
    struct halves to = {target, 0, 0};
    from += 4;
    while (to.count < size) {
        uint8_t flag = *from++;
        uint32_t is_run = flag >> 7, left = (flag & 0x7F) + (is_run ? 3 : 1);
        for (; left && to.count < size; left--) {
            put(&to, *from);
            from += !is_run;
        }
        from += is_run;
    }
    return ended(&to);
}

uint32_t bios_diff8(const void *source, void *target)
{
    const uint8_t *from = source;
    uint32_t size = is_kind(from, DIFFERENCES) ? size_of(from) : 0;
    struct halves to = {target, 0, 0};
    uint8_t value = 0;
    for (from += 4; to.count < size; from++) {
        value = (uint8_t)(value + *from);
        put(&to, value);
    }
    return ended(&to);
}

uint32_t bios_diff16(const void *source, void *target)
{
    const uint8_t *from = source;
    volatile uint16_t *to = target;
    uint32_t size = is_kind(from, DIFFERENCES) ? size_of(from) : 0, written = 0;
    uint16_t value = 0;
    for (from += 4; written < size; from += 2, written += 2) {
        value = (uint16_t)(value + (from[0] | from[1] << 8));
        *to++ = value;
    }
    return written;
}
