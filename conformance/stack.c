/* How many bytes of stack each call takes: it is run on a stack of its own that was painted before, and the lowest changed place is looked
 * for. What the caller itself has on that stack is measured with a call of the same kind that does nothing, and taken off; the return
 * address counts. For each call a line: its name, the greatest figure, the least of what the plans had for their greatest, how many plans
 * it was called on, and what the header says.
 * The exit status is 1 if a call took more than the header says. stack.sh builds and runs it. */
#define _XOPEN_SOURCE 700

#include "gawherino.h"

#include <stdio.h>
#include <stdlib.h>
#include <string.h>
#include <ucontext.h>

/* What is lent. */
static uint8_t plan[65535];
static size_t plan_len;
static uint32_t party;
static uint32_t counts[GAWHERINO_COUNTS];
static uint64_t table[GAWHERINO_MAX_TABLE];
static size_t table_len;
static uint8_t letters[GAWHERINO_MAX_LETTERS];
static size_t letters_len;
static uint32_t evidence[GAWHERINO_EVIDENCE];
static uint8_t out[GAWHERINO_MAX_WRITTEN];
static size_t out_len;
static uint16_t needs[GAWHERINO_MAX_NEEDS];
static size_t needs_len;
static uint8_t page[GAWHERINO_MAX_PAGE];
static size_t page_len;
static uint8_t word[5000];
static size_t word_len;
static uint64_t sets[5001];
static uint64_t length[1];
static uint8_t rec[GAWHERINO_MAX_RECORD];
static uint32_t position[1];
static uint64_t set, next[1];
static uint32_t state, letter, answer;

/* Each call: its name, in capitals too, its parameters, and what it is lent here. */
#define EACH(X) \
    X(read, READ, (const uint8_t *a, size_t b, uint32_t *c, size_t d), (plan, plan_len, counts, GAWHERINO_COUNTS)) \
    X(prepare, PREPARE, (const uint8_t *a, size_t b, uint32_t c, uint64_t *d, size_t e, uint8_t *f, size_t g, uint32_t *h, size_t i), \
      (plan, plan_len, party, table, table_len, letters, letters_len, evidence, GAWHERINO_EVIDENCE)) \
    X(look_ahead, LOOK_AHEAD, (const uint8_t *a, size_t b, uint32_t c, uint8_t *d, size_t e, uint32_t *f, size_t g), \
      (plan, plan_len, party, letters, letters_len, evidence, GAWHERINO_EVIDENCE)) \
    X(count, COUNT, (const uint8_t *a, size_t b), (plan, plan_len)) \
    X(check, CHECK, (const uint8_t *a, size_t b, uint32_t c, const uint32_t *d, size_t e, const uint8_t *f, size_t g), \
      (plan, plan_len, party, evidence, GAWHERINO_EVIDENCE, letters, letters_len)) \
    X(write, WRITE, (const uint8_t *a, size_t b, uint8_t *c, size_t d), (plan, plan_len, out, out_len)) \
    X(needs, NEEDS, (const uint8_t *a, size_t b, uint32_t c, uint16_t *d, size_t e), (plan, plan_len, party, needs, needs_len)) \
    X(page, PAGE, (const uint8_t *a, size_t b, uint32_t c, uint8_t *d, size_t e, uint64_t *f, size_t g), \
      (plan, plan_len, party, page, page_len, length, 1)) \
    X(step, STEP, (const uint64_t *a, size_t b, uint64_t c, uint32_t d, uint64_t *e, size_t f), (table, table_len, set, letter, next, 1)) \
    X(walk, WALK, (const uint64_t *a, size_t b, const uint8_t *c, size_t d, uint64_t *e, size_t f, uint64_t *g, size_t h), \
      (table, table_len, word, word_len, sets, word_len + 1, length, 1)) \
    X(judge, JUDGE, (const uint64_t *a, size_t b, uint32_t c, uint32_t d, const uint8_t *e, size_t f, uint64_t *g, size_t h), \
      (table, table_len, state, letter, word, word_len, sets, GAWHERINO_VERDICT)) \
    X(open, OPEN, (const uint64_t *a, size_t b, uint8_t *c, size_t d, uint32_t *e, size_t f), \
      (table, table_len, rec, GAWHERINO_MAX_RECORD, position, 1)) \
    X(feed, FEED, (const uint64_t *a, size_t b, uint8_t *c, size_t d, uint32_t e, uint32_t *f, size_t g), \
      (table, table_len, rec, GAWHERINO_MAX_RECORD, letter, position, 1)) \
    X(finish, FINISH, (const uint64_t *a, size_t b, const uint8_t *c, size_t d, uint64_t *e, size_t f), \
      (table, table_len, rec, GAWHERINO_MAX_RECORD, sets, GAWHERINO_MAX_SETS)) \
    X(group, GROUP, (uint32_t a), (letter))

#define NUMBER(name, NAME, takes, lent) NAME,
enum { EACH(NUMBER) CALLS };

#define TEXT(name, NAME, takes, lent) "gawherino_" #name,
static const char *const names[CALLS] = {EACH(TEXT)};

#define SAID(name, NAME, takes, lent) GAWHERINO_STACK_##NAME,
static const size_t said[CALLS] = {EACH(SAID)};

/* Beside each call one of the same kind that does nothing. */
#pragma GCC diagnostic ignored "-Wunused-parameter"
#define NOTHING(name, NAME, takes, lent) static uint32_t no_##name takes { return 0; }
EACH(NOTHING)

/* Runs one call on the painted stack. The pointer to it is volatile, so that no call is made part of its caller. */
static int which;
static volatile int real;

#define RUN(name, NAME, takes, lent) \
    case NAME: { \
        uint32_t(*volatile call) takes = real ? gawherino_##name : no_##name; \
        answer = call lent; \
        break; \
    }

static void job(void)
{
    switch (which) {
        EACH(RUN)
    }
}

/* The stack, painted with a number for each place, so that what is written is hardly ever what stood there. */
#define PLACES (1u << 15) /* of 8 bytes: 256 KiB */
static uint64_t stack[PLACES];
static ucontext_t here, there;

static uint64_t paint(size_t i)
{
    uint64_t z = (uint64_t)i * 0x9E3779B97F4A7C15u + 0xD1B54A32D192ED03u;
    z = (z ^ (z >> 30)) * 0xBF58476D1CE4E5B9u;
    return z ^ (z >> 27);
}

/* How far down the painted stack was written, in bytes from its top. */
static size_t depth(void)
{
    size_t i;
    for (i = 0; i < PLACES; i++)
        stack[i] = paint(i);
    getcontext(&there);
    there.uc_stack.ss_sp = stack;
    there.uc_stack.ss_size = sizeof stack;
    there.uc_link = &here;
    makecontext(&there, job, 0);
    swapcontext(&here, &there);
    for (i = 0; i < PLACES && stack[i] == paint(i); i++)
        ;
    if (i < 1024) {
        fprintf(stderr, "stack: %s wrote all over the painted stack\n", names[which]);
        exit(2);
    }
    return (PLACES - i) * 8;
}

/* What the call itself took: on this plan at most, and of the plans' figures the greatest and the least. */
static size_t bare[CALLS], now[CALLS], greatest[CALLS], least[CALLS], plans[CALLS];

static uint32_t measure(int call)
{
    size_t took;
    which = call;
    if (!bare[call]) {
        real = 0;
        bare[call] = depth() - 8; /* but for its return address */
        real = 1;
    }
    took = depth() - bare[call];
    if (took > now[call])
        now[call] = took;
    return answer;
}

static void end_of_plan(void)
{
    int call;
    for (call = 0; call < CALLS; call++) {
        if (now[call] == 0)
            continue;
        if (now[call] > greatest[call])
            greatest[call] = now[call];
        if (plans[call] == 0 || now[call] < least[call])
            least[call] = now[call];
        plans[call]++;
        now[call] = 0;
    }
}

/* Plans: of which edition, and in edition 2 whose the next line is. */
static uint32_t seed = 1;
static size_t edition = 1;
static uint8_t walker;

static uint32_t below(uint32_t end)
{
    seed = seed * 1664525u + 1013904223u;
    return (seed >> 8) % end;
}

static void put16(size_t at, size_t value)
{
    plan[at] = (uint8_t)(value & 255);
    plan[at + 1] = (uint8_t)(value >> 8);
}

static void begin(size_t n, size_t m, size_t p, const uint8_t *starts)
{
    memset(plan, 0, 16);
    put16(0, edition);
    put16(2, n);
    put16(4, m);
    put16(6, p);
    put16(10, 16);
    put16(12, 16 + p);
    if (p > 0)
        memcpy(plan + 16, starts, p);
    plan_len = 16 + p;
    put16(14, plan_len);
}

static void line(size_t from, size_t code, size_t to)
{
    plan[plan_len] = (uint8_t)from;
    plan[plan_len + 1] = (uint8_t)code;
    plan[plan_len + 2] = (uint8_t)to;
    if (edition == 2)
        plan[plan_len + 3] = walker;
    plan_len += edition == 2 ? 4 : 3;
    put16(8, (size_t)(plan[8] + 256 * plan[9]) + 1);
    put16(14, plan_len);
}

/* Random lines, each once; to higher stakes only if downhill, so that there is a look-ahead. Of one party, or of all. */
static uint8_t drawn[64][32][64];
static int mixed;

static void random_lines(size_t n, size_t m, size_t e, int downhill)
{
    memset(drawn, 0, sizeof drawn);
    while (e > 0) {
        size_t from = below((uint32_t)n), code = below((uint32_t)(mixed ? GAWHERINO_PARTIES * m : m)), to = below((uint32_t)n);
        if (mixed) { /* by one number: low bits come again too soon for four */
            walker = (uint8_t)(code / m);
            code %= m;
        }
        if ((downhill && from >= to) || drawn[from][code][to] >> walker & 1)
            continue;
        drawn[from][code][to] |= (uint8_t)(1u << walker);
        line(from, code, to);
        e--;
    }
}

/* Two counters that only together count to i * j (families.rs has them too): k is i * j. */
static void counters(size_t i, size_t j)
{
    size_t a, b;
    uint8_t starts[2];
    starts[0] = 0;
    starts[1] = (uint8_t)i;
    begin(i + j, 4, 2, starts);
    for (a = 0; a < i; a++) {
        line(a, 0, a);
        if (a + 1 < i)
            line(a, 1, a + 1);
        line(a, 2, 0);
        line(a, 2, i);
    }
    for (b = 0; b < j; b++) {
        if (b + 1 < j)
            line(i + b, 0, i + b + 1);
        else
            line(i + b, 1, i);
        line(i + b, 3, 0);
        line(i + b, 3, i);
    }
}

static void lettered(const char *text, size_t n, size_t m)
{
    uint8_t starts[8];
    size_t p = 0;
    while (*text && *text != ';')
        starts[p++] = (uint8_t)(*text++ - '0');
    begin(n, m, p, starts);
    while (*text == ';') {
        line((size_t)(text[1] - '0'), (size_t)(text[2] - '0'), (size_t)(text[3] - '0'));
        text += 4;
    }
}

#define NONE (GAWHERINO_REFUSED + GAWHERINO_NO_LOOKAHEAD)
#define SOME 65535u /* some look-ahead */
#define EITHER 65534u /* some look-ahead or none */

/* Each call on plan bytes, as they are now. */
static void on_these_bytes(void)
{
    measure(READ);
    measure(COUNT);
    measure(LOOK_AHEAD);
    measure(PREPARE);
    measure(CHECK);
    measure(WRITE);
    measure(NEEDS);
    measure(PAGE);
}

/* Every call on one plan with this look-ahead for the party: reading, writing, needs and their page, counting and preparing, refused ones
 * too; a walk; claims. */
static void on_this_plan(uint32_t expected, size_t legs)
{
    uint32_t n, m, k, i, j, lines, refused;
    uint8_t kept;
    n = measure(READ);
    if (n >= GAWHERINO_REFUSED)
        n = 1;
    m = counts[GAWHERINO_COUNT_CODES];
    table_len = GAWHERINO_MAX_TABLE;
    letters_len = out_len = needs_len = page_len = 0;
    measure(PREPARE); /* 9 */
    measure(WRITE);
    measure(NEEDS);
    measure(PAGE); /* or an empty page */
    letters_len = GAWHERINO_MAX_LETTERS;
    out_len = GAWHERINO_MAX_WRITTEN;
    needs_len = sizeof needs / sizeof needs[0];
    page_len = sizeof page;
    for (i = 0; i < 18; i++) { /* damaged plan bytes: one of 1 to 7, mostly, and 16 for the last party */
        size_t at = i < 8 ? 2 * i : i == 8 ? plan_len - 1 : 16 + below((uint32_t)(plan_len - 16 + 1));
        kept = plan[at];
        plan[at] = 255;
        on_these_bytes();
        plan[at] = kept;
    }
    if (edition == 2 && plan_len >= 16 + 2 * 4) { /* two lines that are equal, of a party that is none: 7 */
        uint8_t end[8];
        memcpy(end, plan + plan_len - 8, 8);
        plan[plan_len - 5] = 200;
        memcpy(plan + plan_len - 4, plan + plan_len - 8, 4);
        on_these_bytes();
        memcpy(plan + plan_len - 8, end, 8);
    }
    i = party;
    party = GAWHERINO_PARTIES; /* 16, where a party is named */
    on_these_bytes();
    party = i;
    if (measure(WRITE) != plan_len) {
        fprintf(stderr, "stack: a plan without gaps is not written as long as it is\n");
        exit(2);
    }
    if (measure(NEEDS) != n * m + 1) {
        fprintf(stderr, "stack: a plan has not n * m + 1 needs\n");
        exit(2);
    }
    for (i = lines = 0; i < n * m + 1; i++)
        lines += needs[i] != GAWHERINO_UNMEASURED;
    if (measure(PAGE) != 0 || length[0] != GAWHERINO_PAGE_LINE * lines) {
        fprintf(stderr, "stack: a page has not a line for each need\n");
        exit(2);
    }
    measure(COUNT);
    measure(LOOK_AHEAD);
    k = measure(PREPARE);
    if (expected == SOME ? k >= GAWHERINO_REFUSED : expected == EITHER ? k >= GAWHERINO_REFUSED && k != NONE : k != expected) {
        fprintf(stderr, "stack: a plan has %lu for its look-ahead\n", (unsigned long)k);
        exit(2);
    }
    if (k == NONE) {
        if (measure(CHECK) != 1) {
            fprintf(stderr, "stack: the evidence does not pass its check\n");
            exit(2);
        }
        evidence[GAWHERINO_EVIDENCE_LOOP] = 0;
        measure(CHECK);
        return;
    }
    evidence[GAWHERINO_EVIDENCE_STAKE] = GAWHERINO_STARTS;
    evidence[GAWHERINO_EVIDENCE_CODE] = 0;
    evidence[GAWHERINO_EVIDENCE_S] = 0;
    evidence[GAWHERINO_EVIDENCE_T] = 1;
    evidence[GAWHERINO_EVIDENCE_LEAD_IN] = 1;
    evidence[GAWHERINO_EVIDENCE_LOOP] = 1;
    letters[0] = letters[1] = 0;
    measure(CHECK);
    evidence[GAWHERINO_EVIDENCE_STAKE] = n - 1; /* a fork, which may not count */
    measure(CHECK);
    /* a walk: of codes in any order those that are taken, and all that are refused on the way; then the same as a whole walk */
    measure(OPEN);
    measure(FINISH);
    word_len = 0;
    for (i = 0; i < legs; i++) {
        for (j = 0, refused = GAWHERINO_REFUSED; j < 3 * 32 && refused >= GAWHERINO_REFUSED; j++) {
            letter = below((uint32_t)table[1] + (j == 0 ? 1 : 0));
            refused = measure(FEED);
        }
        if (refused >= GAWHERINO_REFUSED)
            break;
        word[word_len++] = (uint8_t)letter;
        if (i % 50 == 0 || i + 3 > legs)
            measure(FINISH);
    }
    measure(FINISH);
    measure(WALK);
    word[word_len++] = 0;
    measure(WALK);
    /* steps: along the walk; from no stake, from all and from 64, which are too many on most plans; by a code that is not the plan's */
    for (i = 0, set = table[3]; i < word_len; i++, set = next[0]) {
        letter = word[i];
        measure(STEP);
    }
    for (i = 0; i < 4; i++) {
        set = i == 0 ? 0 : UINT64_MAX >> (i == 2 ? 0 : 64 - n);
        letter = i == 3 ? (uint32_t)table[1] : below((uint32_t)table[1]);
        measure(STEP);
    }
    word_len = word_len > 20 ? 20 : word_len;
    for (i = 0; i < 40; i++) {
        state = i == 0 ? GAWHERINO_STARTS : below(n + 1);
        letter = i == 0 ? 0 : below((uint32_t)table[1]);
        word_len = word_len > 0 && i % 3 == 0 ? word_len - 1 : word_len;
        measure(JUDGE);
    }
    /* refused on the table and on the record */
    rec[5] = 1;
    letter = 0;
    measure(FEED);
    measure(FINISH);
    table[0] = 0;
    measure(OPEN);
    measure(FEED);
    measure(FINISH);
    measure(STEP);
    measure(WALK);
    measure(JUDGE);
}

static void every_call(uint32_t expected, size_t legs)
{
    on_this_plan(expected, legs);
    end_of_plan();
}

static const uint8_t starts[2] = {0, 1};

/* The plans, in one edition and for one party. */
static void every_plan(void)
{
    size_t i;

    /* plans A to H */
    lettered("0;001;101;102", 3, 1), every_call(1, 20);
    lettered("0;000;001;101", 2, 1), every_call(NONE, 20);
    lettered("01;002;102;213", 4, 2), every_call(3, 20);
    lettered("0;000;101;102;202", 3, 1), every_call(0, 20);
    lettered("", 1, 1), every_call(0, 20);
    lettered("01", 2, 1), every_call(1, 20);
    lettered("01;001;102;110;212", 3, 2), every_call(3, 20);
    lettered("01;002;102;213;313", 4, 2), every_call(NONE, 20);
    /* 64 stakes: with a look-ahead, dense and sparse; without one; deterministic; a long look-ahead */
    begin(64, 32, 2, starts), random_lines(64, 32, 4096, 1), every_call(SOME, 100);
    begin(64, 4, 2, starts), random_lines(64, 4, 200, 1), every_call(SOME, 100);
    begin(64, 32, 2, starts), random_lines(64, 32, 4096, 0), every_call(NONE, 100);
    begin(64, 1, 1, starts), random_lines(64, 1, 4096, 0), every_call(NONE, 100);
    begin(64, 32, 1, starts);
    for (i = 0; i < 64 * 32; i++)
        line(i / 32, i % 32, below(64));
    every_call(0, 300);
    counters(8, 9), every_call(72, 300);
    counters(32, 32), every_call(1024, 2200);
}

int main(void)
{
    size_t i, most = 0;
    int over = 0;

    every_plan();
    edition = 2;
    party = walker = 5;
    every_plan();
    /* 4,096 lines of all parties, for each of them; for one alone, and for one without lines */
    for (party = 0; party < GAWHERINO_PARTIES; party++) {
        mixed = 1;
        begin(64, 32, 2, starts), random_lines(64, 32, 4096, 1), every_call(SOME, 100);
        begin(64, 32, 2, starts), random_lines(64, 32, 4096, 0), every_call(EITHER, 100);
        mixed = 0;
    }
    walker = 0;
    party = 7;
    begin(64, 32, 2, starts), random_lines(64, 32, 4096, 0), every_call(1, 100);
    for (letter = 0; letter < 300; letter++)
        measure(GROUP);
    end_of_plan();

    for (i = 0; i < CALLS; i++) {
        printf("%s %lu %lu %lu %lu\n", names[i], (unsigned long)greatest[i], (unsigned long)least[i], (unsigned long)plans[i],
               (unsigned long)said[i]);
        if (greatest[i] > said[i]) {
            fprintf(stderr, "stack: %s takes %lu bytes, and include/gawherino.h says %lu\n", names[i], (unsigned long)greatest[i],
                    (unsigned long)said[i]);
            over = 1;
        }
        if (said[i] > most)
            most = said[i];
    }
    if (most != GAWHERINO_MAX_STACK) {
        fprintf(stderr, "stack: GAWHERINO_MAX_STACK is not the greatest figure of the header, %lu\n", (unsigned long)most);
        over = 1;
    }
    return over;
}
