/* Program `judge` in C, unproved: the same plain algorithm, and what the proved one's speed is measured
   against.

     checker            a stream of triples on standard input, book, rewriting and witness, each after
                        its three lengths: `yes` or `no` for each
     checker repeat     before the lengths stands how often the triple is checked

   The book is read; the rewriting's subgoals become words, and the expansion's by a table of each
   use's variables; then each part of the witness is followed in one pass that binds variables. */
#include <stdio.h>
#include <stdlib.h>
#include <string.h>

#include "reading.h"

typedef uint64_t word;

/* A subgoal is nine words: its relation and its terms, tag << 32 | number. No term is 0, which means
   'not bound'. A hidden variable's number is 32 * use + its own. */
enum { WORDS = 9, SUBGOALS = 12, BACK = 96 };
enum { VARIABLE = 1, CONSTANT = 2, HIDDEN = 3 };

struct goals { int count; word of[BACK * WORDS]; };
struct expanded { /* starts[u] is where use u begins in the expansion, and the one past the last where all end */
    const uint8_t *book;
    struct goals question, expansion;
    int uses, starts[SUBGOALS + 1];
};
struct bindings { word of[64]; }; /* 0 to 31: the rule's variables; 32 to 63: those hidden in the current use */

static word coded(int tag, word n) { return (word)tag << 32 | n; }
static word term_at(const uint8_t *bytes) { return coded(bytes[0] + 1, number(bytes + 1)); }
static int tag(word code) { return code >> 32; }

/* ---- words from bytes */

static const uint8_t *entry_of(const uint8_t *book, int i) { return book + 2 + 12 * i; }
static const uint8_t *body_of(const uint8_t *book, int i) { return book + number(entry_of(book, i)); }
static uint32_t stamp_of(const uint8_t *book, int i) { return number(entry_of(book, i) + 8); }

/* Adds a rule's subgoals. Variables become what the table says of them. */
static void add_goals(const uint8_t *rule, const uint8_t *arity, const word *table, struct goals *out) {
    const uint8_t *at = rule + 2 + 5 * rule[0];
    for (int g = 0; g < rule[1]; g++) {
        word *goal = out->of + WORDS * out->count++;
        goal[0] = *at++;
        for (int a = 1; a <= arity[goal[0]]; a++, at += 5) {
            word x = term_at(at);
            goal[a] = tag(x) == VARIABLE ? table[x & 31] : x;
        }
    }
}

/* One use of a summary, whose head's variables become the given terms. */
static void add_use(const uint8_t *book, const uint8_t *summary, const uint8_t *given, int use, struct goals *out) {
    word table[32];
    for (int x = 0; x < 32; x++) table[x] = coded(HIDDEN, 32 * use + x);
    for (int h = 0; h < summary[0]; h++) table[number(summary + 3 + 5 * h)] = term_at(given + 5 * h);
    add_goals(summary, body_of(book, 0), table, out);
}

/* The expansion of a rewriting that is one whole rule over admitted summaries, with the question's head;
   answers 0 if it is none. */
static int expand(struct expanded *e, const uint8_t *rewriting, size_t length) {
    const uint8_t *book = e->book, *question = body_of(book, 1);
    size_t at = 2 + 5 * question[0];
    uint32_t seen = 0;
    if (length < at || rewriting[0] != question[0] || rewriting[1] < 1 || rewriting[1] > SUBGOALS) return 0;
    if (memcmp(rewriting + 2, question + 2, at - 2) != 0) return 0;
    e->uses = rewriting[1];
    e->expansion.count = 0;
    for (int u = 0; u < e->uses; u++) {
        if (at >= length || rewriting[at] < 1 || rewriting[at] > book[0]) return 0;
        int i = rewriting[at] + 1;
        if (!is_admitted(stamp_of(book, 1), stamp_of(book, i))) return 0;
        const uint8_t *summary = body_of(book, i), *given = rewriting + at + 1;
        at = terms(rewriting, length, at + 1, summary[0], &seen);
        if (at == 0) return 0;
        e->starts[u] = e->expansion.count;
        add_use(book, summary, given, u, &e->expansion);
    }
    e->starts[e->uses] = e->expansion.count;
    return at == length;
}

static void add_question(struct expanded *e) {
    word itself[32];
    for (int x = 0; x < 32; x++) itself[x] = coded(VARIABLE, x);
    e->question.count = 0;
    add_goals(body_of(e->book, 1), body_of(e->book, 0), itself, &e->question);
}

/* ---- the two mappings */

/* The head stays as it is. */
static struct bindings of_head(const uint8_t *rule) {
    struct bindings b = {{0}};
    for (int h = 0; h < rule[0]; h++) {
        word x = term_at(rule + 2 + 5 * h);
        if (tag(x) == VARIABLE) b.of[x & 31] = x;
    }
    return b;
}

/* Whether the subgoal can be sent to the target as far as is bound; binds the rest. */
static int send(const word *goal, const word *target, const uint8_t *arity, struct bindings *b) {
    if (goal[0] != target[0]) return 0;
    for (int a = 1; a <= arity[goal[0]]; a++) {
        word x = goal[a], y = target[a];
        if (tag(x) == CONSTANT) {
            if (x != y) return 0;
            continue;
        }
        word *have = &b->of[(x & 31) + (tag(x) == HIDDEN ? 32 : 0)];
        if (*have == 0) *have = y;
        else if (*have != y) return 0;
    }
    return 1;
}

static int goes_there(const struct expanded *e, const uint8_t *pairs) {
    struct bindings b = of_head(body_of(e->book, 1));
    for (int i = 0; i < e->question.count; i++, pairs += 2) {
        int use = pairs[0] - 1, within = pairs[1] - 1;
        if (use < 0 || use >= e->uses || within < 0 || within >= e->starts[use + 1] - e->starts[use]) return 0;
        const word *target = e->expansion.of + WORDS * (e->starts[use] + within);
        if (!send(e->question.of + WORDS * i, target, body_of(e->book, 0), &b)) return 0;
    }
    return 1;
}

static int comes_back(const struct expanded *e, const uint8_t *places) {
    struct bindings b = of_head(body_of(e->book, 1));
    for (int u = 0; u < e->uses; u++) {
        memset(b.of + 32, 0, sizeof(word) * 32);
        for (int i = e->starts[u]; i < e->starts[u + 1]; i++) {
            int place = places[i] - 1;
            if (place < 0 || place >= e->question.count) return 0;
            if (!send(e->expansion.of + WORDS * i, e->question.of + WORDS * place, body_of(e->book, 0), &b)) return 0;
        }
    }
    return 1;
}

static int check(const uint8_t *book, size_t n, const uint8_t *rewriting, size_t k, const uint8_t *witness, size_t m) {
    struct expanded e;
    e.book = book;
    if (read_book(book, n).number != 0 || !expand(&e, rewriting, k)) return 0;
    add_question(&e);
    if (m != (size_t)(2 * e.question.count + e.expansion.count)) return 0;
    return goes_there(&e, witness) && comes_back(&e, witness + 2 * e.question.count);
}

/* ---- the stream */

static int read_number(size_t *n) {
    uint8_t bytes[4];
    if (fread(bytes, 1, 4, stdin) < 4) return 0;
    *n = number(bytes);
    return 1;
}

/* As many of the bytes as come, and room for one more. */
static uint8_t *read_part(size_t *length) {
    uint8_t *bytes = malloc(*length + 1);
    *length = fread(bytes, 1, *length, stdin);
    return bytes;
}

int main(int words, char **word_of) {
    int repeats = words > 1 && strcmp(word_of[1], "repeat") == 0;
    size_t times = 1, n, k, m;
    while ((!repeats || read_number(&times)) && read_number(&n) && read_number(&k) && read_number(&m)) {
        uint8_t *book = read_part(&n), *rewriting = read_part(&k), *witness = read_part(&m);
        int is_right = check(book, n, rewriting, k, witness, m);
        for (; times > 1; times--) {
            book[n] = times; /* no answer depends on it; no compiler can take all checks for one */
            is_right = check(book, n, rewriting, k, witness, m);
        }
        puts(is_right ? "yes" : "no");
        if (repeats) fflush(stdout);
        free(book);
        free(rewriting);
        free(witness);
        times = 1;
    }
    return 0;
}
