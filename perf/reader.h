/* A reader of supervision messages in C, to compare with. */
#ifndef READER_H
#define READER_H

#include <stddef.h>
#include <stdint.h>

enum {
    IAM = 0x01, ACM = 0x06, CON = 0x07, ANM = 0x09, REL = 0x0c, RLC = 0x10,
    RSC = 0x12, BLO = 0x13, UBL = 0x14, BLA = 0x15, UBA = 0x16, GRS = 0x17,
    CGB = 0x18, CGU = 0x19, CGBA = 0x1a, CGUA = 0x1b, GRA = 0x29, CPG = 0x2c
};

/* why octets are refused */
enum { NO_ROOM = 3, SHORT = 4, UNKNOWN = 5, LAYOUT = 6, LIMIT = 7 };

/* How many words a report has: number, type, CIC, indicator, range, and of the part its length,
   its first octet and its last. */
#define WORDS 8

/* Both read the octets and write the report to out. They answer 0, the number of the refusal, or
   NO_ROOM and write nothing where out has fewer words. */
uint32_t c_read(const uint8_t *octets, size_t n, uint64_t *out, size_t words);
uint32_t setsvoku_read(const uint8_t *octets, size_t n, uint64_t *out, size_t words);

#endif
