/* A walk through the C interface, on plans A and B of document 01: reading, preparing, three legs, the ending; the evidence that plan B
 * has no look-ahead, and its check; a refused plan. It prints what the report would print for plan A and three legs of code 0.
 * Its exit status is 0 only if every answer is the expected one.
 *
 *     bash tools/build.sh gawherino && gcc -std=c99 -Iinclude examples/c/walk.c target/staticlib/libgawherino.a -o walk && ./walk
 */
#include "gawherino.h"

#include <stdio.h>

/* Plan A: 3 stakes, 1 code, start 0; lines 0-0-1, 1-0-1, 1-0-2. */
static const uint8_t plan_a[26] = {1, 0, 3, 0, 1, 0, 1, 0, 3, 0, 16, 0, 17, 0, 26, 0, /* the eight numbers */
                                   0,                                                 /* the start */
                                   0, 0, 1, 1, 0, 1, 1, 0, 2};                        /* the lines */

/* Plan B: 2 stakes, 1 code, start 0; lines 0-0-0, 0-0-1, 1-0-1. It has no look-ahead. */
static const uint8_t plan_b[26] = {1, 0, 2, 0, 1, 0, 1, 0, 3, 0, 16, 0, 17, 0, 26, 0, 0, 0, 0, 0, 0, 0, 1, 1, 0, 1};

static int wrong = 0;

/* Compares an answer with the expected one. */
static void expect(const char *what, uint64_t got, uint64_t wanted)
{
    if (got != wanted) {
        fprintf(stderr, "%s: %lu instead of %lu\n", what, (unsigned long)got, (unsigned long)wanted);
        wrong = 1;
    }
}

/* A booking, if the call made one. */
static void print_booking(uint32_t answer, const uint32_t *position)
{
    if (answer < GAWHERINO_NOTHING)
        printf("at %u stake %u\n", (unsigned)position[0], (unsigned)answer);
}

int main(void)
{
    uint32_t counts[3];
    uint64_t table[GAWHERINO_MAX_TABLE];
    uint8_t letters[GAWHERINO_MAX_LETTERS];
    uint32_t evidence[6];
    uint8_t record[GAWHERINO_MAX_RECORD];
    uint32_t position[1] = {0};
    uint64_t sets[GAWHERINO_MAX_LOOKAHEAD];
    uint32_t n, k, answer, open, i, s;

    /* Plan A, read and prepared. */
    n = gawherino_read(plan_a, sizeof plan_a, counts, 3);
    expect("stakes", n, 3);
    printf("stakes %u codes %u starts %u lines %u\n", (unsigned)n, (unsigned)counts[0], (unsigned)counts[1], (unsigned)counts[2]);
    k = gawherino_prepare(plan_a, sizeof plan_a, 0, table, GAWHERINO_MAX_TABLE, letters, sizeof letters, evidence, 6);
    expect("look-ahead", k, 1);
    expect("the drawing entry", gawherino_count(plan_a, sizeof plan_a), k);
    printf("look-ahead %u\n", (unsigned)k);

    /* A walk of three legs: opening books nothing, since k is 1, and leg i books position i - 1. */
    answer = gawherino_open(table, GAWHERINO_MAX_TABLE, record, sizeof record, position, 1);
    expect("opening", answer, GAWHERINO_NOTHING);
    for (i = 0; i < 3; i++) {
        answer = gawherino_feed(table, GAWHERINO_MAX_TABLE, record, sizeof record, 0, position, 1);
        expect("booked stake", answer, i == 0 ? 0 : 1);
        expect("booked position", position[0], i);
        print_booking(answer, position);
    }

    /* The ending: the last position is not booked, and stakes 1 and 2 are possible there. */
    open = gawherino_finish(table, GAWHERINO_MAX_TABLE, record, sizeof record, sets, GAWHERINO_MAX_LOOKAHEAD);
    expect("open positions", open, 1);
    for (i = 0; i < open && i < GAWHERINO_MAX_LOOKAHEAD; i++) {
        expect("possible stakes", sets[i], 6);
        printf("open %u stakes", (unsigned)(3 + 1 - open + i));
        for (s = 0; s < n; s++)
            if (sets[i] >> s & 1)
                printf(" %u", (unsigned)s);
        printf("\n");
    }

    /* Plan B is refused with 15; its evidence passes the check, and with an empty loop it does not. */
    answer = gawherino_look_ahead(plan_b, sizeof plan_b, 0, letters, sizeof letters, evidence, 6);
    expect("plan B", answer, GAWHERINO_REFUSED + 15);
    printf("plan B: set of %u, code %u; stakes %u and %u; lead-in of %u, loop of %u, codes", (unsigned)evidence[0], (unsigned)evidence[1],
           (unsigned)evidence[2], (unsigned)evidence[3], (unsigned)evidence[4], (unsigned)evidence[5]);
    for (i = 0; i < evidence[4] + evidence[5]; i++)
        printf(" %u", (unsigned)letters[i]);
    printf("\n");
    expect("the evidence", gawherino_check(plan_b, sizeof plan_b, 0, evidence, 6, letters, sizeof letters), 1);
    expect("no loop", gawherino_check(plan_b, sizeof plan_b, 0, evidence, 5, letters, sizeof letters), 0);

    /* A plan that is cut short is refused, with 1; and without room for the counts the reader still says 1, else 9. */
    answer = gawherino_read(plan_a, sizeof plan_a - 1, counts, 3);
    expect("a plan cut short", answer, GAWHERINO_REFUSED + GAWHERINO_BAD_TOTAL);
    expect("its refusal", GAWHERINO_REFUSAL(answer), GAWHERINO_BAD_TOTAL);
    expect("its group", gawherino_group(GAWHERINO_REFUSAL(answer)), GAWHERINO_AUTHOR);
    expect("a value is no refusal", GAWHERINO_IS_REFUSED(k) || GAWHERINO_REFUSAL(k), 0);
    i = GAWHERINO_REFUSED + 1;
    expect("evaluated once", GAWHERINO_IS_REFUSED(i++) ? GAWHERINO_REFUSAL(i++) : 0, 2);
    expect("twice in all", i, GAWHERINO_REFUSED + 3);
    printf("refused %u author\n", (unsigned)GAWHERINO_REFUSAL(answer));
    expect("no room, cut short", gawherino_read(plan_a, sizeof plan_a - 1, counts, 2), GAWHERINO_REFUSED + 1);
    expect("no room", gawherino_read(plan_a, sizeof plan_a, counts, 2), GAWHERINO_REFUSED + 9);

    return wrong;
}
