/* Supervision of the circuits of a trunk in C, to compare with: the operations of docs/RULES.md. */
#ifndef SUPERVISION_H
#define SUPERVISION_H

#include <stdbool.h>
#include <stddef.h>
#include <stdint.h>

#define SLOTS 32
#define MOST_SYSTEMS 16
#define WORDS 96
#define OCTETS 320

/* the most places that a policy takes */
#define PLACES 512

enum call { IDLE, CALLING, TALKING, RELEASING };
enum local { NONE, ASKED, SET, LIFTING };
enum reset { NO_RESET, SINGLE, GROUP };

/* types of blocks, which the arrays of a record go by */
enum why { MAINTENANCE, HARDWARE };

struct circuit {
    uint8_t equipped;
    uint8_t call;
    uint8_t local[2];
    uint8_t far[2];
    uint8_t reset;
    uint8_t cause[2];
};

struct trunk {
    uint16_t first;
    uint16_t systems;
    bool higher;
};

/* Neighbours in the order of release. */
struct link {
    uint16_t older, newer;
};

/* Which circuit the next call takes. */
struct policy {
    bool by_release;
    /* whether even places are controlled, in release order */
    bool even;
    union {
        /* for each place, looked at from the low end */
        _Alignas(8) uint8_t marks[PLACES];
        /* past the places stand the ends of two lines */
        struct link links[PLACES + 2];
    };
};

/* What the host lends to an operation. */
struct lent {
    struct circuit *table;
    size_t places;
    struct policy *policy;
    uint32_t *words;
    size_t most_words;
    uint8_t *octets;
    size_t most_octets;
};

/* How many words and octets were written; or the type octet of a message that is refused by 5, 6
   or 7. */
struct written {
    unsigned words;
    unsigned octets;
    uint8_t type;
};

enum order_kind {
    SEIZE, RELEASE, BLOCK, UNBLOCK, RESET, GROUP_BLOCK, GROUP_UNBLOCK, GROUP_RESET
};

struct order {
    enum order_kind kind;
    union {
        struct { const uint8_t *octets; size_t length; } body;
        struct { uint16_t cic; uint8_t location, value; } one;
        struct { uint8_t why; uint32_t mask; size_t system; } group;
    };
};

/* A policy that holds nothing. */
void policy_start(struct policy *policy, bool by_release, bool higher);

/* Opens a trunk; 0, or the number of the refusal. */
unsigned trunk_open(struct trunk *trunk, uint16_t first, const uint32_t *equipment, size_t systems,
                   bool higher, struct circuit *table, size_t places, struct policy *policy);

/* The number of the refusal, or 0. */
unsigned trunk_order(const struct trunk *trunk, const struct order *order, const struct lent *lent,
                     struct written *out);
unsigned trunk_receive(const struct trunk *trunk, const uint8_t *octets, size_t length,
                       const struct lent *lent, struct written *out);
unsigned trunk_expire(const struct trunk *trunk, uint8_t timer, uint16_t at, uint8_t why,
                      const struct lent *lent, struct written *out);

#endif
