/* The reading of a book in C, and its refresh numbers, unproved: one pass over the bytes, contents, relations, then rule by
   rule, no copy. The speed of the proved programs is measured against what is built on it. */
#include <stddef.h>
#include <stdint.h>

struct reading { int number, place; }; /* number 0: sound */

static uint32_t number(const uint8_t *b) { return b[0] | b[1] << 8 | b[2] << 16 | (uint32_t)b[3] << 24; }

/* The lead of a stamp that is not 0: on the ring 1 to 4,294,967,295, which has no 0 to step on. */
static inline int32_t lead(uint32_t need, uint32_t stamp) {
    if (need == 0) return 0;
    uint32_t distance = stamp - need - (stamp < need);
    return distance < 0x80000000 ? (int32_t)distance : (int32_t)(distance + 1);
}

/* A stamp of 0 marks a summary never filled. */
static inline int is_admitted(uint32_t need, uint32_t stamp) { return stamp != 0 && lead(need, stamp) >= 0; }

/* Refusals 2 to 5; on success n is the number of summaries. */
static int contents(const uint8_t *book, size_t length, size_t *n) {
    if (length < 2 || length > 25040) return 2;
    *n = book[0] + 256 * book[1];
    if (*n > 64) return 3;
    uint64_t begin = 2 + 12 * (*n + 2);
    if (length < begin) return 4;
    for (size_t i = 0; i < *n + 2; i++) {
        if (number(book + 2 + 12 * i) != begin) return 4;
        begin += number(book + 6 + 12 * i);
    }
    if (begin != length) return 4;
    const uint8_t *arities = book + number(book + 2);
    size_t relations = number(book + 6);
    if (number(book + 10) != 0 || relations < 1 || relations > 32) return 5;
    for (size_t r = 0; r < relations; r++)
        if (arities[r] < 1 || arities[r] > 8) return 5;
    return 0;
}

/* Reads count terms from `at`: where the next byte stands, or 0 on a fault. The variables among them
   are added to the set `seen`. */
static size_t terms(const uint8_t *rule, size_t length, size_t at, size_t count, uint32_t *seen) {
    for (; count > 0; count--) {
        if (at >= length || rule[at] > 1 || length - at < 5) return 0;
        uint32_t value = number(rule + at + 1);
        if (rule[at] == 0) {
            if (value > 31) return 0;
            *seen |= (uint32_t)1 << value;
        }
        at += 5;
    }
    return at;
}

/* Refusals 6 to 8 of one rule, or 0. */
static int rule_fault(const uint8_t *rule, size_t length, const uint8_t *arities, size_t relations, int is_summary) {
    uint32_t head = 0, body = 0;
    if (length < 2 || rule[0] > 8 || rule[1] < 1 || rule[1] > (is_summary ? 8 : 12)) return 6;
    size_t at = terms(rule, length, 2, rule[0], &head);
    if (at == 0) return 6;
    for (int k = 0; k < rule[1]; k++) {
        if (at >= length || rule[at] >= relations) return 6;
        at = terms(rule, length, at + 1, arities[rule[at]], &body);
        if (at == 0) return 6;
    }
    if (at != length) return 6;
    if (head & ~body) return 7;
    /* distinct variables: as many as there are terms */
    if (is_summary && __builtin_popcount(head) != rule[0]) return 8;
    return 0;
}

static struct reading read_book(const uint8_t *book, size_t length) {
    size_t n;
    int fault = contents(book, length, &n);
    if (fault) return (struct reading){fault, 0};
    const uint8_t *arities = book + number(book + 2);
    for (size_t entry = 1; entry < n + 2; entry++) {
        const uint8_t *at = book + 2 + 12 * entry;
        fault = rule_fault(book + number(at), number(at + 4), arities, number(book + 6), entry > 1);
        if (fault) return (struct reading){fault, entry};
    }
    return (struct reading){0, 0};
}
