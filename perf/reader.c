#include "reader.h"

#include <string.h>

struct message {
    uint8_t type;
    uint8_t indicator;      /* 0 maintenance, 1 hardware */
    uint8_t range;          /* 0 where there is none */
    uint16_t cic;
    const uint8_t *part;    /* status, cause or body, inside the octets that were read */
    size_t part_octets;
};

#ifdef PLAIN_COUNT
/* By arithmetic and a table: without a popcount instruction gcc calls libgcc for the builtins. */
static inline unsigned ones_of_word(uint64_t x)
{
    x -= x >> 1 & 0x5555555555555555;
    x = (x & 0x3333333333333333) + (x >> 2 & 0x3333333333333333);
    x = (x + (x >> 4)) & 0x0f0f0f0f0f0f0f0f;
    return (unsigned)(x * 0x0101010101010101 >> 56);
}

static inline unsigned ones_of_octet(unsigned x)
{
    static const uint8_t ones[16] = { 0, 1, 1, 2, 1, 2, 2, 3, 1, 2, 2, 3, 2, 3, 3, 4 };
    return (unsigned)ones[x & 15] + ones[x >> 4];
}
#else
#define ones_of_word(x) ((unsigned)__builtin_popcountll(x))
#define ones_of_octet(x) ((unsigned)__builtin_popcount(x))
#endif

/* How many bits of a status are set, without the spare ones of its last octet. Kept out of line:
   without a popcount instruction it calls into libgcc, and inlined it would have each caller save
   registers for that, also where nothing is counted. */
__attribute__((noinline))
static unsigned count_set(const uint8_t *status, unsigned range)
{
    unsigned last = range / 8;
    unsigned count = 0;
    unsigned at = 0;

    for (; at + 8 <= last; at += 8) {
        uint64_t word;
        memcpy(&word, status + at, sizeof word);
        count += ones_of_word(word);
    }
    for (; at < last; at++)
        count += ones_of_octet(status[at]);
    return count + ones_of_octet(status[last] & (0xffu >> (7 - range % 8)));
}

/* A length octet, a range from 1 to most and its status, which are all of the n octets. */
static inline int read_group(const uint8_t *p, size_t n, unsigned most, struct message *m)
{
    if (n < 2)
        return LAYOUT;
    unsigned range = p[1];
    size_t octets = range / 8 + 1;
    if (p[0] != octets + 1 || n != octets + 2)
        return LAYOUT;
    if (range < 1 || range > most)
        return LIMIT;
    /* a range of at most 31 has no more than 32 bits */
    if (range > 31 && count_set(p + 2, range) > 32)
        return LIMIT;
    m->range = (uint8_t)range;
    m->part = p + 2;
    m->part_octets = octets;
    return 0;
}

/* 02, a pointer, 02 and two cause octets; the pointer is 00 with nothing after them, or 04. */
static inline int read_release(const uint8_t *p, size_t n, struct message *m)
{
    if (n < 5 || p[0] != 2 || p[2] != 2)
        return LAYOUT;
    if (!(p[1] == 0 && n == 5) && !(p[1] == 4 && n >= 6))
        return LAYOUT;
    m->part = p + 3;
    m->part_octets = 2;
    return 0;
}

/* Reads n octets; 0, or the number of the refusal. */
static inline int read_message(const uint8_t *octets, size_t n, struct message *m)
{
    if (n < 3)
        return SHORT;
    m->cic = (uint16_t)(octets[0] | (octets[1] & 0x0f) << 8);
    m->type = octets[2];
    m->indicator = 0;
    m->range = 0;
    m->part = NULL;
    m->part_octets = 0;

    const uint8_t *p = octets + 3;
    n -= 3;
    switch (m->type) {
    case RSC: case BLO: case UBL: case BLA: case UBA:
        return n == 0 ? 0 : LAYOUT;
    case RLC:
        return n == 0 || (n == 1 && p[0] == 0) ? 0 : LAYOUT;
    case GRS:
        if (n != 3 || p[0] != 1 || p[1] != 1)
            return LAYOUT;
        if (p[2] < 1 || p[2] > 31)
            return LIMIT;
        m->range = p[2];
        return 0;
    case GRA:
        if (n < 1 || p[0] != 1)
            return LAYOUT;
        return read_group(p + 1, n - 1, 31, m);
    case CGB: case CGU: case CGBA: case CGUA: {
        if (n < 2 || p[1] != 1)
            return LAYOUT;
        int fault = read_group(p + 2, n - 2, 255, m);
        if (fault)
            return fault;
        m->indicator = p[0] & 3;
        return m->indicator <= 1 ? 0 : LIMIT;
    }
    case REL:
        return read_release(p, n, m);
    case IAM: case ACM: case CON: case ANM: case CPG:
        if (n < 1)
            return LAYOUT;
        m->part = p;
        m->part_octets = n;
        return 0;
    default:
        return UNKNOWN;
    }
}

uint32_t c_read(const uint8_t *octets, size_t n, uint64_t *out, size_t words)
{
    struct message m;

    if (words < WORDS)
        return NO_ROOM;
    int fault = read_message(octets, n, &m);
    out[0] = (uint64_t)fault;
    if (fault) {
        out[1] = fault == SHORT ? 0 : m.type;
        memset(out + 2, 0, 6 * sizeof *out);
        return (uint32_t)fault;
    }
    out[1] = m.type;
    out[2] = m.cic;
    out[3] = m.indicator;
    out[4] = m.range;
    out[5] = m.part_octets;
    out[6] = m.part_octets ? m.part[0] : 0;
    out[7] = m.part_octets ? m.part[m.part_octets - 1] : 0;
    return 0;
}
