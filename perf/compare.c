/* Compares the proved reader with the C reader: reports, and time. MEASURED, the number of messages
   of a measurement, is given by perf/run. */
#define _POSIX_C_SOURCE 199309L
#include "reader.h"

#include <stdio.h>
#include <stdlib.h>
#include <string.h>
#include <time.h>

typedef uint32_t reporter(const uint8_t *, size_t, uint64_t *, size_t);

enum { TYPES = 18, SEED = 767, CASES = 100000, MOST = 64 };

static const uint8_t types[TYPES] = {
    RSC, BLO, UBL, BLA, UBA, RLC,
    /* those with a range */
    GRS, GRA, CGB, CGU, CGBA, CGUA,
    REL, IAM, ACM, CON, ANM, CPG
};

struct octets {
    uint8_t at[MOST];
    size_t n;
};

/* xorshift: the same numbers on every machine */
static uint64_t state = SEED;

static uint32_t below(uint32_t n)
{
    state ^= state << 13;
    state ^= state >> 7;
    state ^= state << 17;
    return (uint32_t)(state >> 32) % n;
}

static void put(struct octets *o, uint32_t octet)
{
    if (o->n < MOST)
        o->at[o->n++] = (uint8_t)octet;
}

/* A length, a range and its status, with as many bits set as asked for or all of the range. */
static void put_group(struct octets *o, uint32_t range, uint32_t bits)
{
    uint32_t octets = range / 8 + 1;
    put(o, octets + 1);
    put(o, range);
    size_t first = o->n;
    for (uint32_t i = 0; i < octets; i++)
        put(o, 0);
    for (uint32_t set = 0; set < bits && set <= range;) {
        uint32_t n = below(range + 1);
        uint8_t *octet = &o->at[first + n / 8];
        uint8_t bit = (uint8_t)(1u << n % 8);
        set += !(*octet & bit);
        *octet |= bit;
    }
}

/* A message with the layout of its type; range and set bits are used where the type has them. */
static struct octets laid_out(uint8_t type, uint32_t range, uint32_t bits)
{
    struct octets o = { .n = 0 };
    put(&o, below(256));
    put(&o, below(16));
    put(&o, type);
    switch (type) {
    case RLC:
        if (below(2))
            put(&o, 0);
        break;
    case GRS:
        put(&o, 1);
        put(&o, 1);
        put(&o, range);
        break;
    case GRA:
        put(&o, 1);
        put_group(&o, range, bits);
        break;
    case CGB: case CGU: case CGBA: case CGUA:
        put(&o, below(2));
        put(&o, 1);
        put_group(&o, range, bits);
        break;
    case REL: {
        uint32_t after = below(2) ? 1 + below(8) : 0;
        put(&o, 2);
        put(&o, after ? 4 : 0);
        put(&o, 2);
        for (uint32_t i = 0; i < 2 + after; i++)
            put(&o, below(256));
        break;
    }
    case IAM: case ACM: case CON: case ANM: case CPG:
        for (uint32_t i = 1 + below(20); i > 0; i--)
            put(&o, below(256));
        break;
    }
    return o;
}

static struct octets valid(uint8_t type)
{
    uint32_t range = type == GRS || type == GRA ? 1 + below(31) : 1 + below(255);
    return laid_out(type, range, below(33));
}

/* One damage out of several to a message. */
static void damage(struct octets *o)
{
    static const uint32_t near[8] = { 0, 1, 30, 31, 32, 33, 34, 255 };

    switch (below(8)) {
    case 0: /* truncated */
        o->n = below((uint32_t)o->n + 1);
        break;
    case 1: /* extended */
        for (uint32_t i = 1 + below(4); i > 0; i--)
            put(o, below(256));
        break;
    case 2: /* one bit */
        o->at[below((uint32_t)o->n)] ^= (uint8_t)(1u << below(8));
        break;
    case 3: /* one octet, near the front: type, pointer, length, range or indicator */
        o->at[below(o->n < 7 ? (uint32_t)o->n : 7)] = (uint8_t)below(256);
        break;
    case 4: /* the same by one */
        o->at[below(o->n < 7 ? (uint32_t)o->n : 7)] += (uint8_t)(below(2) ? 1 : 255);
        break;
    case 5: /* spare bits: above the CIC, in the indicator, past the range */
        o->at[1] |= (uint8_t)(below(16) << 4);
        if (o->n > 3)
            o->at[3] |= (uint8_t)(below(64) << 2);
        o->at[o->n - 1] |= (uint8_t)(0xff00u >> below(9));
        break;
    case 6: /* around the limits of ranges and set bits */
        *o = laid_out(types[6 + below(6)], near[below(8)], 30 + below(5));
        break;
    case 7: /* anything */
        o->n = below(MOST + 1);
        for (size_t i = 0; i < o->n; i++)
            o->at[i] = (uint8_t)below(256);
        if (o->n > 2 && below(4))
            o->at[2] = types[below(TYPES)];
        break;
    }
}

static void show(const char *name, uint32_t answer, const uint64_t *out)
{
    printf("%s answers %u:", name, answer);
    for (int i = 0; i <= WORDS; i++)
        printf(" %llu", (unsigned long long)out[i]);
    printf("\n");
}

/* Whether both readers say the same of one message, and write no more than they say. */
static int same(const struct octets *o, size_t words, uint32_t *answer)
{
    uint64_t ours[WORDS + 1], theirs[WORDS + 1];
    memset(ours, 0xa5, sizeof ours);
    memset(theirs, 0xa5, sizeof theirs);

    /* exactly n octets, so that a read past the end shows under valgrind */
    uint8_t *exact = malloc(o->n ? o->n : 1);
    if (!exact)
        exit(2);
    memcpy(exact, o->at, o->n);
    *answer = setsvoku_read(exact, o->n, ours, words);
    uint32_t other = c_read(exact, o->n, theirs, words);
    free(exact);

    if (*answer == other && memcmp(ours, theirs, sizeof ours) == 0)
        return 1;
    printf("differ at");
    for (size_t i = 0; i < o->n; i++)
        printf(" %02x", o->at[i]);
    printf("\n");
    show("proved", *answer, ours);
    show("C", other, theirs);
    return 0;
}

static int check(void)
{
    unsigned answers[8] = { 0 };
    unsigned by_type[256] = { 0 };
    unsigned differ = 0;

    for (int i = 0; i < CASES; i++) {
        uint8_t type = types[i % TYPES];
        struct octets o = valid(type);
        /* half are damaged, once or twice; some reports have too little room */
        if (i / TYPES % 2) {
            damage(&o);
            if (o.n > 0 && below(4) == 0)
                damage(&o);
        }
        uint32_t answer;
        differ += !same(&o, below(50) ? WORDS : below(WORDS), &answer);
        answers[answer & 7]++;
        if (answer == 0)
            by_type[o.at[2]]++;
    }
    printf("%d messages, %u differ\n", CASES, differ);
    printf("accepted %u, no room %u, short %u, unknown type %u, layout %u, limit %u\n",
           answers[0], answers[NO_ROOM], answers[SHORT], answers[UNKNOWN], answers[LAYOUT],
           answers[LIMIT]);
    printf("accepted by type:");
    for (int i = 0; i < TYPES; i++)
        printf(" %02x:%u", types[i], by_type[types[i]]);
    printf("\n");
    return differ != 0;
}

/* The messages that are measured: all types in turn, or CGB of one range. */
static struct octets measured[MEASURED];

static void prepare(const char *set)
{
    for (int i = 0; i < MEASURED; i++) {
        uint8_t type = types[i % TYPES];
        if (strcmp(set, "mix") == 0)
            measured[i] = valid(type);
        else
            measured[i] = laid_out(CGB, (uint32_t)atoi(set), below(33));
    }
}

static uint64_t sum;

static void run(reporter *reads, int rounds)
{
    uint64_t out[WORDS];
    for (int round = 0; round < rounds; round++)
        for (int i = 0; i < MEASURED; i++)
            sum += reads(measured[i].at, measured[i].n, out, WORDS) + out[6];
}

static double seconds(reporter *reads, int rounds)
{
    struct timespec a, b;
    clock_gettime(CLOCK_MONOTONIC, &a);
    run(reads, rounds);
    clock_gettime(CLOCK_MONOTONIC, &b);
    return (double)(b.tv_sec - a.tv_sec) + (double)(b.tv_nsec - a.tv_nsec) / 1e9;
}

/* The best of several turns, ours and C's one after the other. */
static void compare_time(const char *set)
{
    const int rounds = 200;
    double ours = 1e9, theirs = 1e9;
    for (int turn = 0; turn < 15; turn++) {
        double a = seconds(setsvoku_read, rounds);
        double b = seconds(c_read, rounds);
        ours = a < ours ? a : ours;
        theirs = b < theirs ? b : theirs;
    }
    double each = 1e9 / (double)rounds / MEASURED;
    printf("%-10s %10.2f %10.2f %8.2f\n", set, ours * each, theirs * each, ours / theirs);
}

int main(int argc, char **argv)
{
    const char *what = argc > 1 ? argv[1] : "";

    if (strcmp(what, "check") == 0)
        return check();
    if (argc == 3) {
        prepare(argv[2]);
        if (strcmp(what, "ours") == 0)
            run(setsvoku_read, 1);
        else if (strcmp(what, "c") == 0)
            run(c_read, 1);
        else if (strcmp(what, "time") == 0)
            compare_time(argv[2]);
        else
            return 2;
        return sum == 0;
    }
    fprintf(stderr, "usage: compare check | ours SET | c SET | time SET\n"
                    "SET is mix, or the range of the CGB messages\n");
    return 2;
}
