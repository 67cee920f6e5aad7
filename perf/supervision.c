#include "supervision.h"

#include <string.h>

enum {
    IAM = 0x01, ACM = 0x06, CON = 0x07, ANM = 0x09, REL = 0x0c, RLC = 0x10,
    RSC = 0x12, BLO = 0x13, UBL = 0x14, BLA = 0x15, UBA = 0x16, GRS = 0x17,
    CGB = 0x18, CGU = 0x19, CGBA = 0x1a, CGUA = 0x1b, GRA = 0x29, CPG = 0x2c
};

enum {
    OPENING = 1, TOO_MANY, BUFFERS, SHORT, UNKNOWN, LAYOUT, LIMIT, ARGUMENT, ADDRESS, STATE,
    NONE_OPEN, CHOICE
};

/* why a call ended */
enum { RELEASED = 1, COMPLETED, WAS_RESET, WAS_BLOCKED, DUAL_SEIZURE };

/* of the answer to a release that nothing waited for */
enum { UNEXPECTED_LOCATION = 0x87, UNEXPECTED_VALUE = 0x9f };

/* the range of our own group messages, from time slot 1 */
enum { OWN_RANGE = 30 };

/* the time slots that are circuits */
#define EVERY_SLOT 0xfffffffeu

/* large operations stand apart, so that small ones save no registers for them */
#define apart static __attribute__((noinline))

#define each_bit(bits) (uint32_t left = (bits); left; left &= left - 1)
#define lowest_bit(bits) ((unsigned)__builtin_ctz(bits))

/* Policies. They are told of places below PLACES alone. */

enum { CONTROLLED = PLACES, UNCONTROLLED };

/* the neighbour of a place that is not linked in */
enum { FREE = 0xffff };

void policy_start(struct policy *policy, bool by_release, bool higher)
{
    memset(policy, 0, sizeof *policy);
    policy->by_release = by_release;
    policy->even = higher;
    if (!by_release)
        return;
    for (unsigned at = 0; at < PLACES; at++)
        policy->links[at] = (struct link){ FREE, FREE };
    policy->links[CONTROLLED] = (struct link){ CONTROLLED, CONTROLLED };
    policy->links[UNCONTROLLED] = (struct link){ UNCONTROLLED, UNCONTROLLED };
}

static inline void offer(struct policy *policy, unsigned place)
{
    if (!policy->by_release) {
        policy->marks[place] = 1;
        return;
    }
    struct link *links = policy->links;
    if (links[place].newer != FREE)
        return;
    unsigned end = (place % 2 == 0) == policy->even ? CONTROLLED : UNCONTROLLED;
    unsigned last = links[end].older;
    links[last].newer = (uint16_t)place;
    links[place] = (struct link){ (uint16_t)last, (uint16_t)end };
    links[end].older = (uint16_t)place;
}

static inline void withdraw(struct policy *policy, unsigned place)
{
    if (!policy->by_release) {
        policy->marks[place] = 0;
        return;
    }
    struct link *links = policy->links;
    struct link link = links[place];
    if (link.newer == FREE)
        return;
    links[link.older].newer = link.newer;
    links[link.newer].older = link.older;
    links[place].newer = FREE;
}

/* A member: the lowest, by words of eight marks; or the controlled one that was offered longest ago,
   else the other that was offered last. */
static inline unsigned choose(const struct policy *policy)
{
    if (policy->by_release) {
        unsigned place = policy->links[CONTROLLED].newer;
        return place < PLACES ? place : policy->links[UNCONTROLLED].older;
    }
    for (unsigned at = 0; at < PLACES; at += 8) {
        uint64_t marks;
        memcpy(&marks, policy->marks + at, sizeof marks);
        if (marks)
            return at + (unsigned)__builtin_ctzll(marks) / 8;
    }
    return PLACES;
}

/* Records. */

static inline bool is_open(const struct circuit *c)
{
    return c->equipped
        && !(c->call | c->local[0] | c->local[1] | c->far[0] | c->far[1] | c->reset);
}

static inline bool is_connected(const struct circuit *c)
{
    return c->call == CALLING || c->call == TALKING;
}

static inline bool is_standing(uint8_t local)
{
    return local == ASKED || local == SET;
}

/* Offers a circuit that was closed, if it is open now. */
static inline void offer_open(struct policy *policy, const struct circuit *c, unsigned place)
{
    if (is_open(c))
        offer(policy, place);
}

/* Answers, words and messages. */

static inline unsigned refused_type(struct written *out, unsigned number, uint8_t type)
{
    out->type = type;
    return number;
}

static inline unsigned done(struct written *out, unsigned words, unsigned octets)
{
    out->words = words;
    out->octets = octets;
    return 0;
}

static inline uint32_t send_word(unsigned at, unsigned length)
{
    return 1u << 28 | at << 16 | length;
}

static inline uint32_t begun_word(bool incoming, unsigned cic)
{
    return 2u << 28 | (uint32_t)incoming << 12 | cic;
}

static inline uint32_t ended_word(unsigned cause, unsigned cic)
{
    return 3u << 28 | cause << 12 | cic;
}

static inline uint32_t alert_word(unsigned timer, unsigned cic)
{
    return 4u << 28 | timer << 12 | cic;
}

static inline unsigned put_single(uint8_t *out, unsigned cic, uint8_t type)
{
    out[0] = (uint8_t)cic;
    out[1] = (uint8_t)(cic >> 8);
    out[2] = type;
    return 3;
}

static inline unsigned put_complete(uint8_t *out, unsigned cic)
{
    put_single(out, cic, RLC);
    out[3] = 0;
    return 4;
}

static inline unsigned put_release(uint8_t *out, unsigned cic, const uint8_t cause[2])
{
    put_single(out, cic, REL);
    out[3] = 2;
    out[4] = 0;
    out[5] = 2;
    out[6] = cause[0];
    out[7] = cause[1];
    return 8;
}

static inline unsigned put_group_reset(uint8_t *out, unsigned cic)
{
    put_single(out, cic, GRS);
    out[3] = 1;
    out[4] = 1;
    out[5] = OWN_RANGE;
    return 6;
}

/* Our own group message, from the CIC of time slot 1. */
static inline unsigned put_group(uint8_t *out, unsigned cic, uint8_t type, uint8_t why, uint32_t mask)
{
    put_single(out, cic, type);
    out[3] = why;
    out[4] = 1;
    out[5] = 5;
    out[6] = OWN_RANGE;
    mask >>= 1;
    memcpy(out + 7, &mask, 4);
    return 11;
}

/* The answer to a received group message: its status without the spare bits. */
static inline unsigned put_group_answer(uint8_t *out, unsigned cic, uint8_t type, uint8_t why,
                                        unsigned range, const uint8_t *status)
{
    unsigned last = range / 8;
    put_single(out, cic, type);
    out[3] = why;
    out[4] = 1;
    out[5] = (uint8_t)(last + 2);
    out[6] = (uint8_t)range;
    for (unsigned i = 0; i < last; i++)
        out[7 + i] = status[i];
    out[7 + last] = status[last] & (uint8_t)(0xff >> (7 - range % 8));
    return last + 8;
}

/* Addresses. */

static inline uint8_t admit(const struct trunk *trunk, const struct lent *lent)
{
    if (lent->places > PLACES)
        return TOO_MANY;
    if (lent->places != (size_t)trunk->systems * SLOTS || lent->most_words < WORDS
        || lent->most_octets < OCTETS)
        return BUFFERS;
    return 0;
}

/* The circuit of a CIC, or none if the table does not have it or it is not equipped. */
static inline struct circuit *find(const struct trunk *trunk, const struct lent *lent, unsigned cic)
{
    unsigned place = cic - trunk->first;
    if (place >= lent->places || !lent->table[place].equipped)
        return NULL;
    return lent->table + place;
}

/* Opening. */

unsigned trunk_open(struct trunk *trunk, uint16_t first, const uint32_t *equipment, size_t systems,
                   bool higher, struct circuit *table, size_t places, struct policy *policy)
{
    if (first % SLOTS != 0 || systems < 1 || systems > MOST_SYSTEMS
        || first + systems * SLOTS > 4096 || places != systems * SLOTS)
        return OPENING;
    for (size_t i = 0; i < systems; i++)
        if ((equipment[i] & 0x80000003u) != 0x80000002u)
            return OPENING;
    for (unsigned place = 0; place < PLACES; place++)
        withdraw(policy, place);
    for (unsigned place = 0; place < places; place++) {
        bool equipped = equipment[place / SLOTS] >> place % SLOTS & 1;
        table[place] = (struct circuit){ .equipped = equipped };
        if (equipped)
            offer(policy, place);
    }
    *trunk = (struct trunk){ first, (uint16_t)systems, higher };
    return 0;
}

/* Orders. */

static inline unsigned seize(const struct trunk *trunk, const uint8_t *body, size_t length,
                                  const struct lent *lent, struct written *out)
{
    if (length < 1 || length > 256)
        return ARGUMENT;
    unsigned place = choose(lent->policy);
    if (place >= PLACES)
        return NONE_OPEN;
    if (place >= lent->places || !is_open(lent->table + place))
        return CHOICE;

    unsigned cic = trunk->first + place;
    unsigned sent = 3 + (unsigned)length;
    lent->table[place].call = CALLING;
    withdraw(lent->policy, place);
    lent->words[0] = begun_word(false, cic);
    lent->words[1] = send_word(0, sent);
    put_single(lent->octets, cic, IAM);
    memcpy(lent->octets + 3, body, length);
    return done(out, 2, sent);
}

static inline unsigned release(const struct trunk *trunk, unsigned cic, uint8_t location,
                                    uint8_t value, const struct lent *lent, struct written *out)
{
    if (location > 15 || value > 127)
        return ARGUMENT;
    struct circuit *c = find(trunk, lent, cic);
    if (!c)
        return ADDRESS;
    if (!is_connected(c))
        return STATE;
    c->call = RELEASING;
    c->cause[0] = 0x80 + location;
    c->cause[1] = 0x80 + value;
    lent->words[0] = send_word(0, put_release(lent->octets, cic, c->cause));
    return done(out, 1, 8);
}

static inline unsigned block(const struct trunk *trunk, unsigned cic, const struct lent *lent, struct written *out)
{
    struct circuit *c = find(trunk, lent, cic);
    if (!c)
        return ADDRESS;
    if (c->reset)
        return STATE;
    if (is_open(c))
        withdraw(lent->policy, cic - trunk->first);
    c->local[MAINTENANCE] = ASKED;
    lent->words[0] = send_word(0, put_single(lent->octets, cic, BLO));
    return done(out, 1, 3);
}

static inline unsigned unblock(const struct trunk *trunk, unsigned cic, const struct lent *lent, struct written *out)
{
    struct circuit *c = find(trunk, lent, cic);
    if (!c)
        return ADDRESS;
    if (c->reset)
        return STATE;
    if (c->local[MAINTENANCE])
        c->local[MAINTENANCE] = LIFTING;
    lent->words[0] = send_word(0, put_single(lent->octets, cic, UBL));
    return done(out, 1, 3);
}

/* A reset of ours, single or group, at one circuit; how many words that takes. */
static inline unsigned clear(struct circuit *c, unsigned place, unsigned cic, uint8_t how,
                             struct policy *policy, uint32_t *words)
{
    unsigned told = 0;
    if (is_open(c))
        withdraw(policy, place);
    if (c->call) {
        c->call = IDLE;
        words[told++] = ended_word(WAS_RESET, cic);
    }
    c->local[0] = c->local[1] = NONE;
    c->far[0] = c->far[1] = 0;
    c->reset = how;
    return told;
}

/* A circuit reset, with the alert of T5 if there is to be one. */
static inline unsigned reset(const struct trunk *trunk, struct circuit *c, unsigned cic,
                                  bool alerts, const struct lent *lent, struct written *out)
{
    if (c->reset == GROUP)
        return STATE;
    unsigned told = clear(c, cic - trunk->first, cic, SINGLE, lent->policy, lent->words);
    lent->words[told++] = send_word(0, put_single(lent->octets, cic, RSC));
    if (alerts)
        lent->words[told++] = alert_word(5, cic);
    return done(out, told, 3);
}

/* The named circuits of a PCM system, if each is equipped and no reset waits at any. */
static inline uint8_t judge(const struct circuit *system, uint32_t mask)
{
    bool waiting = false;
    for each_bit(mask) {
        const struct circuit *c = system + lowest_bit(left);
        if (!c->equipped)
            return ADDRESS;
        waiting |= c->reset != NO_RESET;
    }
    return waiting ? STATE : 0;
}

apart unsigned group(const struct trunk *trunk, bool blocks, uint8_t why, size_t system,
                                  uint32_t mask, const struct lent *lent, struct written *out)
{
    if (why > HARDWARE || !mask)
        return ARGUMENT;
    if (system >= trunk->systems || mask & 1)
        return ADDRESS;
    unsigned base = (unsigned)system * SLOTS;
    struct circuit *circuits = lent->table + base;
    uint8_t fault = judge(circuits, mask);
    if (fault)
        return fault;

    unsigned cic = trunk->first + base;
    unsigned told = 0;
    if (blocks) {
        for each_bit(mask) {
            unsigned slot = lowest_bit(left);
            struct circuit *c = circuits + slot;
            if (is_open(c))
                withdraw(lent->policy, base + slot);
            c->local[why] = ASKED;
            if (why == HARDWARE && c->call) {
                c->call = IDLE;
                lent->words[told++] = ended_word(WAS_BLOCKED, cic + slot);
            }
        }
    } else {
        for each_bit(mask) {
            struct circuit *c = circuits + lowest_bit(left);
            if (c->local[why])
                c->local[why] = LIFTING;
        }
    }
    lent->words[told++] =
        send_word(0, put_group(lent->octets, cic + 1, blocks ? CGB : CGU, why, mask));
    return done(out, told, 11);
}

apart unsigned group_reset(const struct trunk *trunk, size_t system,
                                        const struct lent *lent, struct written *out)
{
    if (system >= trunk->systems)
        return ADDRESS;
    unsigned base = (unsigned)system * SLOTS;
    unsigned cic = trunk->first + base;
    unsigned told = 0;
    for (unsigned slot = 1; slot < SLOTS; slot++) {
        struct circuit *c = lent->table + base + slot;
        if (c->equipped)
            told += clear(c, base + slot, cic + slot, GROUP, lent->policy, lent->words + told);
    }
    lent->words[told++] = send_word(0, put_group_reset(lent->octets, cic + 1));
    return done(out, told, 6);
}

unsigned trunk_order(const struct trunk *trunk, const struct order *order,
                          const struct lent *lent, struct written *out)
{
    uint8_t fault = admit(trunk, lent);
    if (fault)
        return fault;
    switch (order->kind) {
    case SEIZE:
        return seize(trunk, order->body.octets, order->body.length, lent, out);
    case RELEASE:
        return release(trunk, order->one.cic, order->one.location, order->one.value, lent, out);
    case BLOCK:
        return block(trunk, order->one.cic, lent, out);
    case UNBLOCK:
        return unblock(trunk, order->one.cic, lent, out);
    case RESET: {
        struct circuit *c = find(trunk, lent, order->one.cic);
        return c ? reset(trunk, c, order->one.cic, false, lent, out) : ADDRESS;
    }
    case GROUP_BLOCK:
        return group(trunk, true, order->group.why, order->group.system, order->group.mask, lent, out);
    case GROUP_UNBLOCK:
        return group(trunk, false, order->group.why, order->group.system, order->group.mask, lent, out);
    default:
        return group_reset(trunk, order->group.system, lent, out);
    }
}

/* Messages for one circuit. */

/* Ends a call, and offers the circuit if it opened. */
static inline void end_call(struct circuit *c, unsigned place, unsigned cause, unsigned cic,
                            const struct lent *lent)
{
    c->call = IDLE;
    lent->words[0] = ended_word(cause, cic);
    offer_open(lent->policy, c, place);
}

static inline unsigned hear_iam(const struct trunk *trunk, struct circuit *c, unsigned cic,
                                     const struct lent *lent, struct written *out)
{
    unsigned told = 0;
    if (c->reset || c->local[HARDWARE] || c->local[MAINTENANCE] == SET || c->call > CALLING)
        return done(out, 0, 0);
    if (c->call == CALLING) {
        if ((cic % 2 == 0) == trunk->higher)
            return done(out, 0, 0);
        lent->words[told++] = ended_word(DUAL_SEIZURE, cic);
    }
    if (is_open(c))
        withdraw(lent->policy, cic - trunk->first);
    c->call = TALKING;
    c->far[0] = c->far[1] = 0;
    lent->words[told++] = begun_word(true, cic);
    return done(out, told, 0);
}

static inline unsigned hear_rel(struct circuit *c, unsigned place, unsigned cic,
                                     const struct lent *lent, struct written *out)
{
    unsigned told = 0;
    if (is_connected(c)) {
        end_call(c, place, RELEASED, cic, lent);
        told = 1;
    }
    lent->words[told++] = send_word(0, put_complete(lent->octets, cic));
    return done(out, told, 4);
}

static inline unsigned hear_rlc(struct circuit *c, unsigned place, unsigned cic,
                                     const struct lent *lent, struct written *out)
{
    if (c->reset == SINGLE) {
        c->reset = NO_RESET;
        offer_open(lent->policy, c, place);
        return done(out, 0, 0);
    }
    switch (c->call) {
    case IDLE:
        return done(out, 0, 0);
    case RELEASING:
        end_call(c, place, COMPLETED, cic, lent);
        return done(out, 1, 0);
    default:
        c->call = RELEASING;
        c->cause[0] = UNEXPECTED_LOCATION;
        c->cause[1] = UNEXPECTED_VALUE;
        lent->words[0] = send_word(0, put_release(lent->octets, cic, c->cause));
        return done(out, 1, 8);
    }
}

static inline unsigned hear_single(struct circuit *c, unsigned place, unsigned cic,
                                        uint8_t type, const struct lent *lent, struct written *out)
{
    uint8_t *local = &c->local[MAINTENANCE];
    uint8_t answer;
    switch (type) {
    case BLO:
        if (is_open(c))
            withdraw(lent->policy, place);
        c->far[MAINTENANCE] = 1;
        answer = BLA;
        break;
    case UBL:
        if (c->far[MAINTENANCE]) {
            c->far[MAINTENANCE] = 0;
            offer_open(lent->policy, c, place);
        }
        answer = UBA;
        break;
    case BLA:
        if (*local == ASKED)
            *local = SET;
        if (*local != NONE)
            return done(out, 0, 0);
        answer = UBL;
        break;
    default:
        if (*local == LIFTING) {
            *local = NONE;
            offer_open(lent->policy, c, place);
        }
        if (*local == NONE)
            return done(out, 0, 0);
        *local = ASKED;
        answer = BLO;
        break;
    }
    lent->words[0] = send_word(0, put_single(lent->octets, cic, answer));
    return done(out, 1, 3);
}

apart unsigned hear_reset(struct circuit *c, unsigned place, unsigned cic,
                                       const struct lent *lent, struct written *out)
{
    uint32_t *words = lent->words;
    uint8_t *octets = lent->octets;
    unsigned told = 0;
    unsigned sent = 0;
    bool was_open = is_open(c);
    if (c->call) {
        c->call = IDLE;
        words[told++] = ended_word(WAS_RESET, cic);
    }
    c->far[0] = c->far[1] = 0;
    if (is_standing(c->local[MAINTENANCE])) {
        c->local[MAINTENANCE] = ASKED;
        words[told++] = send_word(0, 3);
        sent = put_single(octets, cic, BLO);
    }
    if (is_standing(c->local[HARDWARE])) {
        unsigned slot = place % SLOTS;
        c->local[HARDWARE] = ASKED;
        if (slot) {
            words[told++] = send_word(sent, 11);
            sent += put_group(octets + sent, cic - slot + 1, CGB, HARDWARE, 1u << slot);
        }
    }
    words[told++] = send_word(sent, 4);
    sent += put_complete(octets + sent, cic);
    if (!was_open)
        offer_open(lent->policy, c, place);
    return done(out, told, sent);
}

/* Messages for a range. */

/* A range that a message names: the place of its first circuit, and its status. */
struct range {
    unsigned cic;
    unsigned place;
    unsigned last;
    const uint8_t *status;
};

/* The status bits of 32 circuits of a range, from a multiple of 32 on; spare bits are 0. */
static inline uint32_t bits_from(const struct range *range, unsigned from)
{
    unsigned left = range->last - from;
    const uint8_t *status = range->status + from / 8;
    uint32_t bits = 0;
    if (left >= 24)
        memcpy(&bits, status, 4);
    else
        for (unsigned i = 0; i <= left / 8; i++)
            bits |= (uint32_t)status[i] << 8 * i;
    return left < 31 ? bits & ((2u << left) - 1) : bits;
}

/* Whether at most 32 bits of a status are set. */
static bool has_few(const uint8_t *status, unsigned last)
{
    const struct range range = { 0, 0, last, status };
    unsigned count = 0;
    for (unsigned from = 0; from <= last; from += 32)
        count += (unsigned)__builtin_popcount(bits_from(&range, from));
    return count <= 32;
}

/* The place of a range of the table, or PLACES. */
static inline unsigned place_of(const struct trunk *trunk, const struct lent *lent, unsigned cic,
                                unsigned last)
{
    unsigned place = cic - trunk->first;
    return place < lent->places && place + last < lent->places ? place : PLACES;
}

/* Whether each circuit whose bit is set is equipped. */
static inline bool are_equipped(const struct range *range, const struct circuit *table)
{
    for (unsigned from = 0; from <= range->last; from += 32)
        for each_bit(bits_from(range, from))
            if (!table[range->place + from + lowest_bit(left)].equipped)
                return false;
    return true;
}

static inline unsigned hear_block(const struct range *range, uint8_t why,
                                       const struct lent *lent, struct written *out)
{
    unsigned told = 0;
    for (unsigned from = 0; from <= range->last; from += 32)
        for each_bit(bits_from(range, from)) {
            unsigned n = from + lowest_bit(left);
            struct circuit *c = lent->table + range->place + n;
            if (is_open(c))
                withdraw(lent->policy, range->place + n);
            c->far[why] = 1;
            if (why == HARDWARE && c->call) {
                c->call = IDLE;
                lent->words[told++] = ended_word(WAS_BLOCKED, range->cic + n);
            }
        }
    unsigned sent =
        put_group_answer(lent->octets, range->cic, CGBA, why, range->last, range->status);
    lent->words[told++] = send_word(0, sent);
    return done(out, told, sent);
}

static inline unsigned hear_unblock(const struct range *range, uint8_t why,
                                         const struct lent *lent, struct written *out)
{
    for (unsigned from = 0; from <= range->last; from += 32)
        for each_bit(bits_from(range, from)) {
            unsigned place = range->place + from + lowest_bit(left);
            struct circuit *c = lent->table + place;
            if (c->far[why]) {
                c->far[why] = 0;
                offer_open(lent->policy, c, place);
            }
        }
    unsigned sent =
        put_group_answer(lent->octets, range->cic, CGUA, why, range->last, range->status);
    lent->words[0] = send_word(0, sent);
    return done(out, 1, sent);
}

/* Our group messages, one for each PCM system that has a circuit to name, as places rise. */
struct grouped {
    uint32_t mask;
    unsigned system;
    unsigned told;
    unsigned sent;
};

static inline void put_system(struct grouped *grouped, const struct trunk *trunk, uint8_t type,
                              uint8_t why, const struct lent *lent)
{
    uint32_t mask = grouped->mask & EVERY_SLOT;
    if (!mask)
        return;
    unsigned cic = trunk->first + grouped->system * SLOTS + 1;
    lent->words[grouped->told++] = send_word(grouped->sent, 11);
    grouped->sent += put_group(lent->octets + grouped->sent, cic, type, why, mask);
}

static inline void name(struct grouped *grouped, unsigned place, const struct trunk *trunk,
                        uint8_t type, uint8_t why, const struct lent *lent)
{
    if (place / SLOTS != grouped->system) {
        put_system(grouped, trunk, type, why, lent);
        grouped->system = place / SLOTS;
        grouped->mask = 0;
    }
    grouped->mask |= 1u << place % SLOTS;
}

static inline unsigned hear_block_ack(const struct trunk *trunk, const struct range *range,
                                           uint8_t why, const struct lent *lent, struct written *out)
{
    struct grouped unblocked = { .system = range->place / SLOTS };
    for (unsigned from = 0; from <= range->last; from += 32)
        for each_bit(bits_from(range, from)) {
            unsigned place = range->place + from + lowest_bit(left);
            uint8_t *local = &lent->table[place].local[why];
            if (*local == ASKED)
                *local = SET;
            else if (*local == NONE)
                name(&unblocked, place, trunk, CGU, why, lent);
        }
    put_system(&unblocked, trunk, CGU, why, lent);
    return done(out, unblocked.told, unblocked.sent);
}

static inline unsigned hear_unblock_ack(const struct trunk *trunk, const struct range *range,
                                             uint8_t why, const struct lent *lent, struct written *out)
{
    struct grouped standing = { .system = range->place / SLOTS };
    for (unsigned from = 0; from <= range->last; from += 32)
        for each_bit(bits_from(range, from)) {
            unsigned place = range->place + from + lowest_bit(left);
            struct circuit *c = lent->table + place;
            if (c->local[why] == LIFTING) {
                c->local[why] = NONE;
                offer_open(lent->policy, c, place);
            } else if (c->local[why] != NONE) {
                c->local[why] = ASKED;
                name(&standing, place, trunk, CGB, why, lent);
            }
        }
    put_system(&standing, trunk, CGB, why, lent);
    return done(out, standing.told, standing.sent);
}

apart unsigned hear_group_reset(const struct trunk *trunk, unsigned cic, unsigned last,
                                             const struct lent *lent, struct written *out)
{
    unsigned first = place_of(trunk, lent, cic, last);
    if (first == PLACES)
        return ADDRESS;
    uint32_t *words = lent->words;
    uint8_t *octets = lent->octets;
    unsigned told = 0;
    unsigned sent = 0;
    uint32_t shown = 0;
    /* the hardware blocks to ask again, of the PCM system of the first circuit and of the next */
    uint64_t standing = 0;
    for (unsigned n = 0; n <= last; n++) {
        struct circuit *c = lent->table + first + n;
        if (!c->equipped)
            continue;
        bool was_open = is_open(c);
        if (c->call) {
            c->call = IDLE;
            words[told++] = ended_word(WAS_RESET, cic + n);
        }
        c->far[0] = c->far[1] = 0;
        if (is_standing(c->local[HARDWARE])) {
            c->local[HARDWARE] = ASKED;
            standing |= (uint64_t)1 << (first % SLOTS + n);
        }
        shown |= (uint32_t)is_standing(c->local[MAINTENANCE]) << n;
        if (!was_open)
            offer_open(lent->policy, c, first + n);
    }
    unsigned system = trunk->first + first / SLOTS * SLOTS;
    for (; standing; standing >>= SLOTS, system += SLOTS) {
        uint32_t mask = (uint32_t)standing & EVERY_SLOT;
        if (mask) {
            words[told++] = send_word(sent, 11);
            sent += put_group(octets + sent, system + 1, CGB, HARDWARE, mask);
        }
    }
    unsigned most = last / 8 + 1;
    words[told++] = send_word(sent, 6 + most);
    put_single(octets + sent, cic, GRA);
    octets[sent + 3] = 1;
    octets[sent + 4] = (uint8_t)(most + 1);
    octets[sent + 5] = (uint8_t)last;
    for (unsigned i = 0; i < most; i++)
        octets[sent + 6 + i] = (uint8_t)(shown >> 8 * i);
    return done(out, told, sent + 6 + most);
}

apart unsigned hear_group_reset_ack(const struct trunk *trunk, unsigned cic,
                                                 unsigned last, const uint8_t *status,
                                                 const struct lent *lent, struct written *out)
{
    struct range range = { cic, place_of(trunk, lent, cic, last), last, status };
    if (range.place == PLACES || !are_equipped(&range, lent->table))
        return ADDRESS;
    if (range.place % SLOTS != 1 || last != OWN_RANGE)
        return done(out, 0, 0);
    uint32_t bits = bits_from(&range, 0);
    for (unsigned n = 0; n <= OWN_RANGE; n++) {
        struct circuit *c = lent->table + range.place + n;
        if (!c->equipped || c->reset != GROUP)
            continue;
        c->reset = NO_RESET;
        c->far[MAINTENANCE] = bits >> n & 1;
        offer_open(lent->policy, c, range.place + n);
    }
    return done(out, 0, 0);
}

/* CGB, CGU, CGBA, CGUA: an indicator, 01, a length, a range and its status. */
apart unsigned hear_group(const struct trunk *trunk, const uint8_t *octets,
                                       size_t length, unsigned cic, uint8_t type,
                                       const struct lent *lent, struct written *out)
{
    if (length < 8)
        return refused_type(out, LAYOUT, type);
    unsigned last = octets[6];
    if (octets[4] != 1 || octets[5] != last / 8 + 2 || length != last / 8 + 8)
        return refused_type(out, LAYOUT, type);
    uint8_t why = octets[3] & 3;
    /* a range of at most 31 has no more than 32 bits */
    if (why > HARDWARE || last < 1 || (last > 31 && !has_few(octets + 7, last)))
        return refused_type(out, LIMIT, type);
    struct range range = { cic, place_of(trunk, lent, cic, last), last, octets + 7 };
    if (range.place == PLACES || !are_equipped(&range, lent->table))
        return ADDRESS;
    switch (type) {
    case CGB:
        return hear_block(&range, why, lent, out);
    case CGU:
        return hear_unblock(&range, why, lent, out);
    case CGBA:
        return hear_block_ack(trunk, &range, why, lent, out);
    default:
        return hear_unblock_ack(trunk, &range, why, lent, out);
    }
}

unsigned trunk_receive(const struct trunk *trunk, const uint8_t *octets, size_t length,
                            const struct lent *lent, struct written *out)
{
    uint8_t fault = admit(trunk, lent);
    if (fault)
        return fault;
    if (length < 3)
        return SHORT;
    unsigned cic = octets[0] | (octets[1] & 15u) << 8;
    uint8_t type = octets[2];
    struct circuit *c;
    switch (type) {
    case BLO: case UBL: case BLA: case UBA:
        if (length != 3)
            return refused_type(out, LAYOUT, type);
        c = find(trunk, lent, cic);
        return c ? hear_single(c, cic - trunk->first, cic, type, lent, out) : ADDRESS;
    case RSC:
        if (length != 3)
            return refused_type(out, LAYOUT, type);
        c = find(trunk, lent, cic);
        return c ? hear_reset(c, cic - trunk->first, cic, lent, out) : ADDRESS;
    case RLC:
        if (length != 3 && (length != 4 || octets[3]))
            return refused_type(out, LAYOUT, type);
        c = find(trunk, lent, cic);
        return c ? hear_rlc(c, cic - trunk->first, cic, lent, out) : ADDRESS;
    case REL:
        if (length < 8 || octets[3] != 2 || octets[5] != 2
            || (length == 8 ? octets[4] != 0 : octets[4] != 4))
            return refused_type(out, LAYOUT, type);
        c = find(trunk, lent, cic);
        return c ? hear_rel(c, cic - trunk->first, cic, lent, out) : ADDRESS;
    case IAM:
        if (length < 4)
            return refused_type(out, LAYOUT, type);
        c = find(trunk, lent, cic);
        return c ? hear_iam(trunk, c, cic, lent, out) : ADDRESS;
    case ACM: case CON: case ANM: case CPG:
        if (length < 4)
            return refused_type(out, LAYOUT, type);
        c = find(trunk, lent, cic);
        if (!c)
            return ADDRESS;
        if (c->call == CALLING)
            c->call = TALKING;
        return done(out, 0, 0);
    case CGB: case CGU: case CGBA: case CGUA:
        return hear_group(trunk, octets, length, cic, type, lent, out);
    case GRS:
        if (length != 6 || octets[3] != 1 || octets[4] != 1)
            return refused_type(out, LAYOUT, type);
        if (octets[5] < 1 || octets[5] > 31)
            return refused_type(out, LIMIT, type);
        return hear_group_reset(trunk, cic, octets[5], lent, out);
    case GRA: {
        if (length < 7)
            return refused_type(out, LAYOUT, type);
        unsigned last = octets[5];
        if (octets[3] != 1 || octets[4] != last / 8 + 2 || length != last / 8 + 7)
            return refused_type(out, LAYOUT, type);
        if (last < 1 || last > 31)
            return refused_type(out, LIMIT, type);
        return hear_group_reset_ack(trunk, cic, last, octets + 6, lent, out);
    }
    default:
        return refused_type(out, UNKNOWN, type);
    }
}

/* Expiries. */

/* A message for one circuit once more, with an alert if the timer is the second of a pair. */
static inline unsigned repeat_single(bool waits, unsigned cic, uint8_t type, unsigned timer,
                                          const struct lent *lent, struct written *out)
{
    if (!waits)
        return done(out, 0, 0);
    lent->words[0] = send_word(0, put_single(lent->octets, cic, type));
    if (timer % 2 == 0)
        return done(out, 1, 3);
    lent->words[1] = alert_word(timer, cic);
    return done(out, 2, 3);
}

apart unsigned repeat_group(const struct trunk *trunk, unsigned timer, size_t system,
                                         uint8_t why, const struct lent *lent, struct written *out)
{
    if (why > HARDWARE)
        return ARGUMENT;
    if (system >= trunk->systems)
        return ADDRESS;
    const struct circuit *circuits = lent->table + system * SLOTS;
    uint8_t waited = timer < 20 ? ASKED : LIFTING;
    uint32_t mask = 0;
    for (unsigned slot = 1; slot < SLOTS; slot++)
        if (circuits[slot].equipped && circuits[slot].local[why] == waited)
            mask |= 1u << slot;
    if (!mask)
        return done(out, 0, 0);
    unsigned cic = trunk->first + (unsigned)system * SLOTS + 1;
    put_group(lent->octets, cic, timer < 20 ? CGB : CGU, why, mask);
    lent->words[0] = send_word(0, 11);
    if (timer % 2 == 0)
        return done(out, 1, 11);
    lent->words[1] = alert_word(timer, cic);
    return done(out, 2, 11);
}

apart unsigned repeat_group_reset(const struct trunk *trunk, unsigned timer,
                                               size_t system, const struct lent *lent, struct written *out)
{
    if (system >= trunk->systems)
        return ADDRESS;
    const struct circuit *circuits = lent->table + system * SLOTS;
    unsigned slot = 1;
    while (slot < SLOTS && !(circuits[slot].equipped && circuits[slot].reset == GROUP))
        slot++;
    if (slot == SLOTS)
        return done(out, 0, 0);
    unsigned cic = trunk->first + (unsigned)system * SLOTS + 1;
    lent->words[0] = send_word(0, put_group_reset(lent->octets, cic));
    if (timer % 2 == 0)
        return done(out, 1, 6);
    lent->words[1] = alert_word(timer, cic);
    return done(out, 2, 6);
}

unsigned trunk_expire(const struct trunk *trunk, uint8_t timer, uint16_t at, uint8_t why,
                           const struct lent *lent, struct written *out)
{
    uint8_t fault = admit(trunk, lent);
    if (fault)
        return fault;
    struct circuit *c;
    switch (timer) {
    case 1: case 5:
        c = find(trunk, lent, at);
        if (!c)
            return ADDRESS;
        if (c->call != RELEASING)
            return done(out, 0, 0);
        if (timer == 5)
            return reset(trunk, c, at, true, lent, out);
        lent->words[0] = send_word(0, put_release(lent->octets, at, c->cause));
        return done(out, 1, 8);
    case 12: case 13:
        c = find(trunk, lent, at);
        return c ? repeat_single(c->local[MAINTENANCE] == ASKED, at, BLO, timer, lent, out)
                 : ADDRESS;
    case 14: case 15:
        c = find(trunk, lent, at);
        return c ? repeat_single(c->local[MAINTENANCE] == LIFTING, at, UBL, timer, lent, out)
                 : ADDRESS;
    case 16: case 17:
        c = find(trunk, lent, at);
        return c ? repeat_single(c->reset == SINGLE, at, RSC, timer, lent, out) : ADDRESS;
    case 18: case 19: case 20: case 21:
        return repeat_group(trunk, timer, at, why, lent, out);
    case 22: case 23:
        return repeat_group_reset(trunk, timer, at, lent, out);
    default:
        return ARGUMENT;
    }
}
