/* Plays the same lines as crates/cost on the operations in C, and prints the same.

       operations METHOD                 plays each line, and prints what it gave
       operations METHOD SYSTEMS COUNT   plays the lines before `repeat` once, and those after it
                                         COUNT times from the same circuits

   METHOD is `low` or `release`. */
#include "supervision.h"

#include <stdio.h>
#include <stdlib.h>
#include <string.h>

/* records of one PCM system more than a trunk has, to lend too many */
#define ROOM (SLOTS * (MOST_SYSTEMS + 1))

/* words and octets past those that are lent, to see that they are kept */
#define PAST 4

enum event_kind { ORDERED, RECEIVED, EXPIRED };

struct event {
    enum event_kind kind;
    union {
        struct order order;
        struct { const uint8_t *octets; size_t length; } received;
        struct { uint16_t at; uint8_t timer, why; } expired;
    };
    /* of a body or a message */
    uint8_t part[1024];
};

static struct circuit table[ROOM], before[ROOM];
static struct policy policy;
static bool by_release;
static uint32_t words[WORDS + PAST], kept_words[WORDS + PAST];
static uint8_t octets[OCTETS + PAST], kept_octets[OCTETS + PAST];
static struct trunk trunk;
static struct lent lent = {
    .table = table, .policy = &policy, .words = words, .most_words = WORDS,
    .octets = octets, .most_octets = OCTETS
};

/* What is counted. */
__attribute__((noinline))
unsigned play_event(const struct event *event, const struct trunk *on, const struct lent *with,
                    struct written *written)
{
    switch (event->kind) {
    case ORDERED:
        return trunk_order(on, &event->order, with, written);
    case RECEIVED:
        return trunk_receive(on, event->received.octets, event->received.length, with, written);
    default:
        return trunk_expire(on, event->expired.timer, event->expired.at, event->expired.why, with,
                            written);
    }
}

static void fail(const char *line)
{
    fprintf(stderr, "not understood: %s\n", line);
    exit(2);
}

static size_t read_octets(char *text, uint8_t *part)
{
    size_t length = 0;
    for (char *word = strtok(text, " "); word; word = strtok(NULL, " "))
        part[length++] = (uint8_t)strtoul(word, NULL, 16);
    return length;
}

/* An event, as crates/terminal reads it. */
static void read_event(const char *line, struct event *event)
{
    static const char *const names[] = {
        "seize", "release", "block", "unblock", "reset", "group-block", "group-unblock",
        "group-reset"
    };
    char text[8192];
    unsigned long a = 0, b = 0, c = 0;
    snprintf(text, sizeof text, "%s", line);
    char *rest = strchr(text, ' ');
    if (rest)
        *rest++ = 0;
    else
        rest = text + strlen(text);

    if (!strcmp(text, "receive")) {
        event->kind = RECEIVED;
        event->received.octets = event->part;
        event->received.length = read_octets(rest, event->part);
        return;
    }
    if (!strcmp(text, "expire")) {
        if (sscanf(rest, "%lu %lu %lu", &a, &b, &c) < 2)
            fail(line);
        event->kind = EXPIRED;
        event->expired.timer = (uint8_t)a;
        event->expired.at = (uint16_t)b;
        event->expired.why = (uint8_t)c;
        return;
    }
    unsigned kind = 0;
    while (kind <= GROUP_RESET && strcmp(text, names[kind]))
        kind++;
    event->kind = ORDERED;
    event->order.kind = kind;
    switch (kind) {
    case SEIZE:
        event->order.body.octets = event->part;
        event->order.body.length = read_octets(rest, event->part);
        break;
    case RELEASE: case BLOCK: case UNBLOCK: case RESET:
        if (sscanf(rest, "%lu %lu %lu", &a, &b, &c) != (kind == RELEASE ? 3 : 1))
            fail(line);
        event->order.one.cic = (uint16_t)a;
        event->order.one.location = (uint8_t)b;
        event->order.one.value = (uint8_t)c;
        break;
    case GROUP_BLOCK: case GROUP_UNBLOCK:
        if (sscanf(rest, "%lu %lu %lx", &a, &b, &c) != 3)
            fail(line);
        event->order.group.why = (uint8_t)a;
        event->order.group.system = b;
        event->order.group.mask = (uint32_t)c;
        break;
    case GROUP_RESET:
        if (sscanf(rest, "%lu", &a) != 1)
            fail(line);
        event->order.group.system = a;
        break;
    default:
        fail(line);
    }
}

static void put_refusal(unsigned refusal, const struct written *written)
{
    printf("refused %u", refusal);
    if (refusal >= 5 && refusal <= 7)
        printf(" type=%02X", written->type);
}

static void put_record(size_t place)
{
    const struct circuit *c = table + place;
    printf(" %zu=%d%d%d%d%d%d%d%02X%02X", place, c->equipped, c->call, c->local[0], c->local[1],
           c->far[0], c->far[1], c->reset, c->cause[0], c->cause[1]);
}

static void put_changes(void)
{
    for (size_t place = 0; place < ROOM; place++)
        if (memcmp(table + place, before + place, sizeof *table))
            put_record(place);
}

/* Opens a trunk over a new policy. Refused, all is as it was. */
static void open_trunk(char *text)
{
    uint32_t equipment[MOST_SYSTEMS + 1];
    size_t systems = 0;
    char *first = strtok(text, " ");
    char *higher = strtok(NULL, " ");
    for (char *word = strtok(NULL, " "); word; word = strtok(NULL, " "))
        equipment[systems++] = (uint32_t)strtoul(word, NULL, 16);

    struct policy fresh;
    policy_start(&fresh, by_release, *higher == '1');
    unsigned refusal = trunk_open(&trunk, (uint16_t)atoi(first), equipment, systems, *higher == '1',
                                 table, systems * SLOTS, &fresh);
    if (refusal) {
        printf("refused %u", refusal);
        return;
    }
    policy = fresh;
    memset(table + systems * SLOTS, 0, (ROOM - systems * SLOTS) * sizeof *table);
    lent.places = systems * SLOTS;
    lent.most_words = WORDS;
    lent.most_octets = OCTETS;
    printf("opened");
}

static void play_line(char *line)
{
    static struct event event;

    memcpy(before, table, sizeof table);
    if (!strncmp(line, "open ", 5)) {
        open_trunk(line + 5);
    } else if (!strncmp(line, "lend ", 5)) {
        if (sscanf(line, "lend %zu %zu %zu", &lent.places, &lent.most_words, &lent.most_octets) != 3)
            fail(line);
        printf("lent");
    } else if (!strncmp(line, "put ", 4)) {
        char digits[8];
        size_t place;
        if (sscanf(line, "put %zu %7s", &place, digits) != 2 || strlen(digits) != 7 || place >= ROOM)
            fail(line);
        struct circuit *c = table + place;
        uint8_t *fields[7] = {
            &c->equipped, &c->call, &c->local[0], &c->local[1], &c->far[0], &c->far[1], &c->reset
        };
        for (size_t i = 0; i < 7; i++)
            *fields[i] = (uint8_t)(digits[i] - '0');
        printf("put");
    } else {
        read_event(line, &event);
        memcpy(kept_words, words, sizeof words);
        memcpy(kept_octets, octets, sizeof octets);
        struct written written = { 0 };
        unsigned refusal = play_event(&event, &trunk, &lent, &written);
        if (refusal) {
            put_refusal(refusal, &written);
            written.words = written.octets = 0;
        } else {
            printf("words");
            for (unsigned i = 0; i < written.words; i++)
                printf(" %08X", words[i]);
            printf(" octets");
            for (unsigned i = 0; i < written.octets; i++)
                printf(" %02X", octets[i]);
        }
        if (memcmp(words + written.words, kept_words + written.words,
                   sizeof words - written.words * sizeof *words)
            || memcmp(octets + written.octets, kept_octets + written.octets,
                      sizeof octets - written.octets))
            printf(" WROTE MORE");
    }
    put_changes();
    printf("\n");
    fflush(stdout);
}

static size_t read_line(char **line, size_t *room)
{
    ssize_t length = getline(line, room, stdin);
    if (length <= 0)
        return 0;
    if ((*line)[length - 1] == '\n')
        (*line)[length - 1] = 0;
    return 1;
}

/* Plays events so many times, each time on the circuits and the policy as they stand; what the last
   gave. */
__attribute__((noinline))
unsigned play_again(const struct event *events, size_t n, unsigned long count,
                    struct written *written)
{
    static struct policy saved;
    unsigned refusal = 0;

    saved = policy;
    memcpy(before, table, sizeof table);
    for (unsigned long i = 0; i < count; i++) {
        policy = saved;
        memcpy(table, before, sizeof table);
        for (size_t k = 0; k < n; k++)
            refusal = play_event(events + k, &trunk, &lent, written);
    }
    return refusal;
}

/* A trunk of so many PCM systems, from CIC 0 on, with the higher point code. */
static void start(size_t systems)
{
    uint32_t equipment[MOST_SYSTEMS];
    for (size_t i = 0; i < MOST_SYSTEMS; i++)
        equipment[i] = 0xfffffffe;
    policy_start(&policy, by_release, true);
    if (trunk_open(&trunk, 0, equipment, systems, true, table, systems * SLOTS, &policy))
        fail("the number of PCM systems");
    lent.places = systems * SLOTS;
}

static void repeat(size_t systems, unsigned long count)
{
    static struct event once, events[64];
    struct written written = { 0 };
    size_t n = 0;
    bool prepared = false;
    char *line = NULL;
    size_t room = 0;

    start(systems);
    while (read_line(&line, &room)) {
        if (!strcmp(line, "repeat")) {
            prepared = true;
        } else if (prepared && n < 64) {
            read_event(line, events + n++);
        } else {
            read_event(line, &once);
            if (play_event(&once, &trunk, &lent, &written))
                fail(line);
        }
    }
    free(line);
    unsigned refusal = play_again(events, n, count, &written);
    if (refusal)
        put_refusal(refusal, &written);
    else
        printf("words %u octets %u", written.words, written.octets);
    printf("\n");
}

int main(int argc, char **argv)
{
    if ((argc != 2 && argc != 4) || (strcmp(argv[1], "low") && strcmp(argv[1], "release")))
        fail("operations low|release [SYSTEMS COUNT]");
    by_release = !strcmp(argv[1], "release");
    if (argc == 4) {
        repeat(strtoul(argv[2], NULL, 10), strtoul(argv[3], NULL, 10));
        return 0;
    }
    char *line = NULL;
    size_t room = 0;
    for (size_t i = 0; i < OCTETS + PAST; i++)
        octets[i] = 0xa5;
    for (size_t i = 0; i < WORDS + PAST; i++)
        words[i] = 0xa5a5a5a5;
    start(1);
    while (read_line(&line, &room))
        play_line(line);
    free(line);
    return 0;
}
