/* Program `rewrite` in C, unproved: the same algorithm, and what the proved one's speed is measured
   against.

     rewriter            a stream of books on standard input, each after its length: each one's listing
     rewriter repeat     before each length stands how often the book is rewritten: a line tells the last outcome
     rewriter guesses    as without a word, and on standard error how many guesses each book took

   Everything is one search: `place` sends a source's subgoals to targets, one after the other. Rows,
   which row can stand in for which, whether a budget of rows is enough, and the witness's two parts
   are calls of it. */
#include <stdio.h>
#include <stdlib.h>
#include <string.h>

#include "reading.h"

typedef uint64_t word;

/* A subgoal is nine words: its relation and eight terms, those past its arity 0.
   A term of a target is tag << 32 | number: tag 1 a variable, 2 a constant, 3 a hidden variable,
   32 * use + its number. So codes sort as the specification says, and none is 0, which means 'not
   bound'. A term of a source is a slot to be bound where it is below 64 (0 to 31: the rule's; 32 to
   63: those of the current use alone), and otherwise a code that stays as it is. */
enum { WORDS = 9, SUBGOALS = 12, IN_SUMMARY = 8, ROWS = 64, TARGETS = ROWS * IN_SUMMARY, BACK = SUBGOALS * IN_SUMMARY };
enum { VARIABLE = 1, CONSTANT = 2, HIDDEN = 3, HEAD_PLACE = 255 };
enum { ANSWER_ROOM = 534, WITNESS_ROOM = 120 };

struct rule { int heads, subgoals; word head[8], body[SUBGOALS * WORDS]; };
struct book { uint32_t need, stamp[64]; int summaries; uint8_t arity[256]; struct rule question, summary[64]; };
struct row { int summary; word term[8]; };

/* ---- the search */

struct bindings { word of[64]; };
struct rows { word used, may; int left; }; /* sets of rows; one of `may` that is not used costs one of `left` */

struct task {
    const uint8_t *arity;
    const word *source; int sources;
    const uint8_t *last; /* the subgoals that end a use, behind which the own slots are unbound; or null: none does */
    const word *target; int targets;
    const uint8_t *own; /* the row that a target belongs to; or null: all may be used */
};

/* Why a placing failed: the slots whose bindings did it, and whether more rows might have helped. */
struct failure { word slots; int is_short; };

static uint64_t guesses;

static int has(word set, int x) { return set >> x & 1; }
static word with(word set, word x) { return x < 64 ? set | (word)1 << x : set; }
static word stands(const struct bindings *b, word x) { return x < 64 ? b->of[x] : x; }

/* Whether subgoal i may still become target k. */
static int offered(const struct task *t, const struct bindings *b, int i, int k) {
    const word *goal = t->source + WORDS * i, *target = t->target + WORDS * k;
    if (goal[0] != target[0]) return 0;
    for (int a = 1; a <= t->arity[goal[0]]; a++) {
        word have = stands(b, goal[a]);
        if (have != 0 && have != target[a]) return 0;
    }
    return 1;
}

/* The rows that have a target for subgoal i; one that is used is enough. */
static word offers(const struct task *t, const struct bindings *b, struct rows rows, int i) {
    word found = 0;
    for (int k = 0; k < t->targets; k++) {
        int row = t->own[k];
        if (!has(rows.used | rows.may, row) || !offered(t, b, i, k)) continue;
        found = with(found, row);
        if (has(rows.used, row)) return found;
    }
    return found;
}

/* Whether placing the subgoals from `at` on is seen to be in vain: one has no target any more, or they
   want more rows than are left, each serving as many as the one that serves most. */
static int is_vain(const struct task *t, int at, const struct bindings *b, struct rows rows, struct failure *why) {
    uint8_t served[ROWS] = {0};
    int many = 0, most = 0;
    word slots = 0;
    for (int i = at; i < t->sources; i++) {
        const word *goal = t->source + WORDS * i;
        word own = 0, found = offers(t, b, rows, i);
        if (found & rows.used) continue;
        for (int a = 1; a <= t->arity[goal[0]]; a++) own = with(own, goal[a]);
        if (found == 0) {
            *why = (struct failure){own, 0};
            return 1;
        }
        slots |= own;
        many++;
        for (; found; found &= found - 1) {
            int r = __builtin_ctzll(found);
            if (++served[r] > most) most = served[r];
        }
    }
    if (many <= rows.left * most) return 0;
    *why = (struct failure){slots, 1};
    return 1;
}

/* Sends the subgoals from `at` on. Writes each one's target to `places` and answers 1 if it can be
   done, by the first way in order; else says why not. */
static int place(const struct task *t, int at, const struct bindings *before, struct rows rows, uint16_t *places, struct failure *why) {
    if (at == t->sources) return 1;
    if (rows.may && is_vain(t, at, before, rows, why)) return 0;
    const word *goal = t->source + WORDS * at;
    int arity = t->arity[goal[0]];
    struct failure all = {0, 0};
    for (int k = 0; k < t->targets; k++) {
        const word *target = t->target + WORDS * k;
        if (target[0] != goal[0]) continue;
        struct rows after = rows;
        int is_free = !t->own || has(rows.used, t->own[k]);
        if (!is_free) {
            if (!has(rows.may, t->own[k])) continue;
            if (rows.left == 0) {
                all.is_short = 1;
                continue;
            }
            after.used = with(rows.used, t->own[k]);
            after.left--;
        }
        guesses++;
        struct bindings guess = *before;
        word bound_here = 0;
        int a = 1;
        for (; a <= arity; a++) {
            word x = goal[a], y = target[a], have = stands(&guess, x);
            if (have == 0) {
                guess.of[x] = y;
                bound_here = with(bound_here, x);
            } else if (have != y) {
                all.slots = with(all.slots, x);
                break;
            }
        }
        if (a <= arity) continue;
        int ends_use = t->last && t->last[at];
        if (ends_use) memset(guess.of + 32, 0, sizeof(word) * 32);
        struct failure below;
        places[at] = k;
        if (place(t, at + 1, &guess, after, places, &below)) return 1;
        if (ends_use) below.slots &= 0xffffffff;
        /* What failed has nothing to do with this guess: no other target can help. One in a row that was
           used already leaves the rows as they were, and no other guess leaves better ones. */
        if (!(below.slots & bound_here) && (!below.is_short || is_free)) {
            *why = below;
            return 0;
        }
        all.slots |= below.slots;
        all.is_short |= below.is_short;
    }
    *why = all;
    return 0;
}

static const struct bindings unbound;
static const struct rows no_rows;

static int first_mapping(const struct task *t, const struct bindings *before, uint16_t *places) {
    struct failure why;
    return place(t, 0, before, no_rows, places, &why);
}

/* ---- words from rules */

static int tag(word code) { return code >> 32; }
static word coded(int a_tag, word n) { return (word)a_tag << 32 | n; }
static word slot(word code) { return tag(code) == VARIABLE ? code & 31 : code; }

/* The rule's subgoals as what is sent. */
static void source_of(const struct rule *r, word *out) {
    for (int i = 0; i < r->subgoals * WORDS; i++) out[i] = i % WORDS == 0 ? r->body[i] : slot(r->body[i]);
}

/* A row's expansion. Its head's variables become the row's terms; the other ones by `hidden`. */
enum hidden { AS_TARGET, AS_SOURCE, AS_SOURCE_BACK };
static void expand(const struct book *b, const struct row *row, int use, enum hidden hidden, word *out) {
    const struct rule *r = &b->summary[row->summary];
    for (int i = 0; i < r->subgoals * WORDS; i++) {
        word x = r->body[i];
        if (i % WORDS != 0 && tag(x) == VARIABLE) {
            int h = 0;
            while (h < r->heads && r->head[h] != x) h++;
            if (h < r->heads) x = hidden == AS_SOURCE_BACK ? slot(row->term[h]) : row->term[h];
            else x = hidden == AS_TARGET ? coded(HIDDEN, 32 * use + (x & 31)) : 32 + (x & 31);
        }
        out[i] = x;
    }
}

/* ---- summary rows */

static int by_code(const void *a, const void *b) {
    word x = *(const word *)a, y = *(const word *)b;
    return x < y ? -1 : x > y;
}

/* The question's terms, ascending and each once; answers how many. */
static int terms_of(const struct book *b, word *out) {
    const struct rule *q = &b->question;
    int count = 0, kept = 0;
    for (int g = 0; g < q->subgoals; g++)
        for (int a = 0; a < b->arity[q->body[g * WORDS]]; a++) out[count++] = q->body[g * WORDS + 1 + a];
    qsort(out, count, sizeof(word), by_code);
    for (int i = 0; i < count; i++)
        if (i == 0 || out[i] != out[i - 1]) out[kept++] = out[i];
    return kept;
}

struct heads { const struct task *body; const word *slot; int heads; const word *term; int terms; };

/* Whether some row has these terms, by their numbers, in its first j places. */
static int begins(const struct heads *h, int j, const int *chosen) {
    struct bindings fixed = unbound;
    uint16_t places[IN_SUMMARY];
    for (int i = 0; i < j; i++) fixed.of[h->slot[i]] = h->term[chosen[i]];
    return first_mapping(h->body, &fixed, places);
}

/* Place j gets the first term from `from` on with which some row begins; answers whether there is one. */
static int choose_term(const struct heads *h, int j, int from, int *chosen) {
    for (chosen[j] = from; chosen[j] < h->terms; chosen[j]++)
        if (begins(h, j + 1, chosen)) return 1;
    return 0;
}

/* The first row after the one that stands in `chosen`: the last place that can goes further on, and
   those behind it start anew. From -1, the first row of all. */
static int next_row(const struct heads *h, int *chosen, int is_first) {
    int j = h->heads;
    if (is_first) {
        if (!begins(h, 0, chosen)) return 0;
        j = 0;
    } else {
        do
            if (--j < 0) return 0;
        while (!choose_term(h, j, chosen[j] + 1, chosen));
        j++;
    }
    for (; j < h->heads; j++) choose_term(h, j, 0, chosen);
    return 1;
}

/* All rows in order, or -1 where there are more than 64. */
static int find_rows(const struct book *b, struct row *rows) {
    word term[SUBGOALS * 8], source[IN_SUMMARY * WORDS], slots[8];
    int terms = terms_of(b, term), count = 0;
    for (int s = 0; s < b->summaries; s++) {
        if (!is_admitted(b->need, b->stamp[s])) continue;
        const struct rule *r = &b->summary[s];
        source_of(r, source);
        for (int h = 0; h < r->heads; h++) slots[h] = slot(r->head[h]);
        struct task body = {b->arity, source, r->subgoals, NULL, b->question.body, b->question.subgoals, NULL};
        struct heads heads = {&body, slots, r->heads, term, terms};
        int chosen[8];
        for (int more = next_row(&heads, chosen, 1); more; more = next_row(&heads, chosen, 0)) {
            if (count == ROWS) return -1;
            rows[count].summary = s;
            for (int h = 0; h < r->heads; h++) rows[count].term[h] = term[chosen[h]];
            count++;
        }
    }
    return count;
}

/* ---- the shortest list, and of those the first */

struct frame {
    struct task task; /* the question to all rows' expansions */
    struct bindings head;
    int rows;
    word covers[ROWS]; /* of row r the set of those that can stand in for it: its expansion goes into theirs */
    word source[SUBGOALS * WORDS], target[TARGETS * WORDS];
    uint8_t own[TARGETS];
};

/* The question's head stays as it is. */
static struct bindings head_bindings(const struct rule *q) {
    struct bindings b = unbound;
    for (int i = 0; i < q->heads; i++)
        if (tag(q->head[i]) == VARIABLE) b.of[q->head[i] & 31] = q->head[i];
    return b;
}

static int has_relation(const word *targets, int count, word relation) {
    for (int k = 0; k < count; k++)
        if (targets[k * WORDS] == relation) return 1;
    return 0;
}

static void find_covers(const struct book *b, const struct row *rows, struct frame *f, const int *start) {
    for (int r = 0; r < f->rows; r++) {
        word source[IN_SUMMARY * WORDS];
        uint16_t places[IN_SUMMARY];
        expand(b, &rows[r], r, AS_SOURCE, source);
        f->covers[r] = 0;
        for (int v = 0; v < f->rows; v++) {
            struct task t = {b->arity, source, b->summary[rows[r].summary].subgoals, NULL,
                             f->target + start[v] * WORDS, b->summary[rows[v].summary].subgoals, NULL};
            if (v != r && has_relation(t.target, t.targets, source[0]) && first_mapping(&t, &unbound, places)) f->covers[r] = with(f->covers[r], v);
        }
    }
}

static void prepare(const struct book *b, const struct row *rows, int count, struct frame *f) {
    int targets = 0, start[ROWS];
    for (int r = 0; r < count; r++) {
        start[r] = targets;
        expand(b, &rows[r], r, AS_TARGET, f->target + targets * WORDS);
        for (int g = 0; g < b->summary[rows[r].summary].subgoals; g++) f->own[targets++] = r;
    }
    source_of(&b->question, f->source);
    f->task = (struct task){b->arity, f->source, b->question.subgoals, NULL, f->target, targets, f->own};
    f->head = head_bindings(&b->question);
    f->rows = count;
    find_covers(b, rows, f, start);
}

/* Whether the used rows and at most `left` more of those that may be used take the whole question.
   A row that another one, used or allowed, can stand in for is not needed. */
static int enough(const struct frame *f, struct rows rows) {
    uint16_t places[SUBGOALS];
    struct failure why;
    for (int r = 0; r < f->rows; r++)
        if (f->covers[r] & (rows.used | rows.may)) rows.may &= ~((word)1 << r);
    return place(&f->task, 0, &f->head, rows, places, &why);
}

/* Chooses the rows of the answer, in order; answers how many, 0 if no list works. */
static int choose(const struct frame *f, const struct row *rows, struct row *chosen) {
    struct rows now = {0, f->rows == 64 ? ~(word)0 : ((word)1 << f->rows) - 1, SUBGOALS};
    int got = 0;
    if (!enough(f, now)) return 0; /* no list works if none as long as the question does, and fewer rows cannot do what more cannot */
    for (now.left = 0; now.left < SUBGOALS && !enough(f, now); now.left++) continue;
    for (int r = 0; now.left > 0; r++) {
        now.may &= ~((word)1 << r);
        struct rows with_it = {with(now.used, r), now.may, now.left - 1};
        if (enough(f, with_it)) {
            now = with_it;
            chosen[got++] = rows[r];
        }
    }
    return got;
}

/* ---- answer and witness as bytes */

struct outcome { int number, place, answer, witness; }; /* number 0: done, with both lengths */

static uint8_t *put_terms(uint8_t *out, const word *terms, int count) {
    for (int i = 0; i < count; i++) {
        *out++ = tag(terms[i]) == CONSTANT;
        for (int shift = 0; shift < 32; shift += 8) *out++ = terms[i] >> shift;
    }
    return out;
}

static int put_answer(const struct book *b, const struct row *chosen, int count, uint8_t *answer) {
    uint8_t *out = answer;
    *out++ = b->question.heads;
    *out++ = count;
    out = put_terms(out, b->question.head, b->question.heads);
    for (int i = 0; i < count; i++) {
        *out++ = chosen[i].summary + 1;
        out = put_terms(out, chosen[i].term, b->summary[chosen[i].summary].heads);
    }
    return out - answer;
}

/* Both parts of the witness: each the first mapping, over all targets. */
static int put_witness(const struct book *b, const struct row *chosen, int count, uint8_t *witness) {
    word source[SUBGOALS * WORDS], there[BACK * WORDS], back[BACK * WORDS];
    uint8_t use[BACK], within[BACK], last[BACK], *out = witness;
    uint16_t places[BACK];
    int subgoals = 0;
    for (int u = 0; u < count; u++) {
        expand(b, &chosen[u], u, AS_TARGET, there + subgoals * WORDS);
        expand(b, &chosen[u], u, AS_SOURCE_BACK, back + subgoals * WORDS);
        for (int g = 0; g < b->summary[chosen[u].summary].subgoals; g++, subgoals++) {
            use[subgoals] = u;
            within[subgoals] = g;
            last[subgoals] = g == b->summary[chosen[u].summary].subgoals - 1;
        }
    }
    source_of(&b->question, source);
    struct bindings head = head_bindings(&b->question);
    struct task to = {b->arity, source, b->question.subgoals, NULL, there, subgoals, NULL};
    struct task fro = {b->arity, back, subgoals, last, b->question.body, b->question.subgoals, NULL};
    if (!first_mapping(&to, &head, places)) abort();
    for (int i = 0; i < b->question.subgoals; i++) {
        *out++ = use[places[i]] + 1;
        *out++ = within[places[i]] + 1;
    }
    if (!first_mapping(&fro, &head, places)) abort();
    for (int i = 0; i < subgoals; i++) *out++ = places[i] + 1;
    return out - witness;
}

/* ---- books */

static void load_rule(const uint8_t *bytes, const uint8_t *arity, struct rule *r) {
    r->heads = *bytes++;
    r->subgoals = *bytes++;
    for (int h = 0; h < r->heads; h++, bytes += 5) r->head[h] = coded(bytes[0] + 1, number(bytes + 1));
    for (int g = 0; g < r->subgoals; g++) {
        word *out = r->body + g * WORDS;
        memset(out, 0, sizeof(word) * WORDS);
        out[0] = *bytes++;
        for (int a = 0; a < arity[out[0]]; a++, bytes += 5) out[1 + a] = coded(bytes[0] + 1, number(bytes + 1));
    }
}

/* A sound book. */
static void load(const uint8_t *bytes, struct book *b) {
    b->summaries = bytes[0];
    b->need = number(bytes + 22);
    memcpy(b->arity, bytes + number(bytes + 2), number(bytes + 6));
    load_rule(bytes + number(bytes + 14), b->arity, &b->question);
    for (int s = 0; s < b->summaries; s++) {
        const uint8_t *entry = bytes + 2 + 12 * (s + 2);
        b->stamp[s] = number(entry + 8);
        load_rule(bytes + number(entry), b->arity, &b->summary[s]);
    }
}

static struct outcome rewrite(const uint8_t *bytes, size_t length, struct book *b, uint8_t *answer, uint8_t *witness) {
    static struct row rows[ROWS];
    static struct frame f;
    struct row chosen[SUBGOALS];
    struct reading r = read_book(bytes, length);
    if (r.number) return (struct outcome){r.number, r.place, 0, 0};
    load(bytes, b);
    int count = find_rows(b, rows);
    if (count < 0) return (struct outcome){9, 0, 0, 0};
    prepare(b, rows, count, &f);
    int got = choose(&f, rows, chosen);
    if (got == 0) return (struct outcome){10, 0, 0, 0};
    int written = put_answer(b, chosen, got, answer);
    return (struct outcome){0, 0, written, put_witness(b, chosen, got, witness)};
}

/* ---- the listing */

static void print_leads(const struct book *b) {
    printf("need %u\n", b->need);
    for (int s = 0; s < b->summaries; s++) {
        if (b->stamp[s] == 0) printf("view %d lead none\n", s + 1);
        else printf("view %d lead %d\n", s + 1, lead(b->need, b->stamp[s]));
    }
}

static void print_listing(const struct book *b, const uint8_t *answer, const uint8_t *witness, int length) {
    print_leads(b);
    printf("rewriting %d\n", answer[1]);
    const uint8_t *at = answer + 2 + 5 * answer[0];
    for (int i = 0; i < answer[1]; i++) {
        int summary = *at++;
        printf("%d", summary);
        for (int h = 0; h < b->summary[summary - 1].heads; h++, at += 5) printf(" %c%u", at[0] ? 'c' : 'v', number(at + 1));
        putchar('\n');
    }
    printf("there");
    for (int i = 0; i < b->question.subgoals; i++) printf(" %d.%d", witness[2 * i], witness[2 * i + 1]);
    printf("\nback");
    for (int i = 2 * b->question.subgoals; i < length; i++) printf(" %d", witness[i]);
    putchar('\n');
}

static int read_number(size_t *n) {
    uint8_t bytes[4];
    if (fread(bytes, 1, 4, stdin) < 4) return 0;
    *n = number(bytes);
    return 1;
}

int main(int words, char **word_of) {
    static struct book b;
    static uint8_t answer[ANSWER_ROOM], witness[WITNESS_ROOM];
    int repeats = words > 1 && strcmp(word_of[1], "repeat") == 0;
    int counts = words > 1 && strcmp(word_of[1], "guesses") == 0;
    size_t times = 1, length;
    while ((!repeats || read_number(&times)) && read_number(&length)) {
        uint8_t *bytes = malloc(length + 1);
        length = fread(bytes, 1, length, stdin);
        guesses = 0;
        struct outcome got = rewrite(bytes, length, &b, answer, witness);
        for (; times > 1; times--) got = rewrite(bytes, length, &b, answer, witness);
        if (got.number) printf("refused %d at %d\n", got.number, got.place);
        else if (repeats) printf("done %d %d\n", got.answer, got.witness);
        else print_listing(&b, answer, witness, got.witness);
        if (repeats) fflush(stdout);
        if (counts) fprintf(stderr, "%llu\n", (unsigned long long)guesses);
        free(bytes);
        times = 1;
    }
    return 0;
}
