/* Gawherino for C: every call on plans, tables and records, over plain numbers and lent slices. Version 3.0.1.
 *
 * USE. The plan's bytes are in plan; the logger gives one code for each leg. No call allocates, so room is lent:
 *
 *     uint64_t table[GAWHERINO_MAX_TABLE], sets[GAWHERINO_MAX_SETS];
 *     uint8_t letters[GAWHERINO_MAX_LETTERS], record[GAWHERINO_MAX_RECORD];
 *     uint32_t evidence[GAWHERINO_EVIDENCE], position[1], code, answer;
 *     answer = gawherino_prepare(plan, plan_len, 0, table, GAWHERINO_MAX_TABLE, letters, sizeof letters, evidence, GAWHERINO_EVIDENCE);
 *     if (!GAWHERINO_IS_REFUSED(answer)) answer = gawherino_open(table, GAWHERINO_MAX_TABLE, record, sizeof record, position, 1);
 *     if (GAWHERINO_IS_REFUSED(answer)) return refused(GAWHERINO_REFUSAL(answer));
 *     if (answer != GAWHERINO_NOTHING) booked(position[0], answer);
 *     while (next_code(&code)) {
 *         answer = gawherino_feed(table, GAWHERINO_MAX_TABLE, record, sizeof record, code, position, 1);
 *         if (GAWHERINO_IS_REFUSED(answer)) refused(GAWHERINO_REFUSAL(answer)); // this code changed nothing, and the walk may go on
 *         else if (answer != GAWHERINO_NOTHING) booked(position[0], answer);
 *     }
 *     answer = gawherino_finish(table, GAWHERINO_MAX_TABLE, record, sizeof record, sets, GAWHERINO_MAX_SETS); // what is still open
 *
 * examples/c/walk.c is a whole program, and examples/c/restart.c keeps a walk across restarts.
 *
 * ANSWERS. Each call answers a value below 65,536, or 65,536 plus the number of a refusal (document 01; named below). Further values go
 * into a lent slice, which keeps its rest. A refused call writes nothing, except that under 15 preparing and the count call write the
 * evidence. The first refusal that applies is given, in the order in which they are named at the call. A slice for further values with
 * fewer places than are named there is refused with 9, in its place among the refusals, also where the call would put nothing there.
 *
 * SLICES. A slice is a pointer and then how many elements are lent: elements, not bytes. A pointer must be aligned as C asks for its type,
 * and all its elements must be there: nothing checks that pointer and length belong together. A null pointer goes with the length 0 only;
 * with the length 0 a pointer may be anything. No two slices that are lent to one call may overlap if one of them is written.
 *
 * STATE. No call keeps or shares anything beyond what it is lent, so any thread may call at any time, as long as no two calls at once are
 * lent slices that share an element which one of them writes. Nothing is allocated. Of the C library memcpy, memmove and memset are
 * called, and nothing else. How much stack each call takes is named below; with too little of it a call faults.
 */
#ifndef GAWHERINO_H
#define GAWHERINO_H

#include <stddef.h>
#include <stdint.h>

#ifdef __cplusplus
extern "C" {
#endif

/* The version of this header. A change of a call's parameters, of what it answers, or of the table's or the record's form raises the first
 * number, a further call the second. */
#define GAWHERINO_VERSION_MAJOR 3
#define GAWHERINO_VERSION_MINOR 0
#define GAWHERINO_VERSION_PATCH 1

/* ANSWERS */

/* An answer from here on is a refusal, this number plus the refusal's. */
#define GAWHERINO_REFUSED 65536u
/* Whether an answer is a refusal; and the refusal's number, or 0 for a value. Both evaluate their argument once. */
#define GAWHERINO_IS_REFUSED(answer) ((uint32_t)(answer) >= GAWHERINO_REFUSED)
#define GAWHERINO_REFUSAL(answer) gawherino_refusal(answer)

static inline uint32_t gawherino_refusal(uint32_t answer)
{
    return answer >= GAWHERINO_REFUSED ? answer - GAWHERINO_REFUSED : 0;
}

/* Opening and a leg: no stake was booked. */
#define GAWHERINO_NOTHING 255u
/* As the stake of a critical set, with code 0: the starts. */
#define GAWHERINO_STARTS 255u

/* As the need of a critical set: it has none; it is empty or does not count. */
#define GAWHERINO_ENDLESS 65535u
#define GAWHERINO_UNMEASURED 65534u

/* Refusals by the plan's author. */
#define GAWHERINO_BAD_TOTAL 1u       /* fewer than 16 bytes, or the total is not the byte count */
#define GAWHERINO_BAD_EDITION 2u     /* the edition is neither 1 nor 2 */
#define GAWHERINO_BAD_COUNT 3u       /* a count is out of its range */
#define GAWHERINO_BAD_PART 4u        /* the starts or the lines begin before byte 16, end after the total, or overlap */
#define GAWHERINO_BAD_START 5u       /* a start is not below n, or stands twice */
#define GAWHERINO_BAD_LINE 6u        /* a line's stake is not below n, or its code not below m */
#define GAWHERINO_LINE_TWICE 7u      /* two lines are equal, in edition 2 in their party too */
#define GAWHERINO_NO_LOOKAHEAD 15u   /* no k exists */
#define GAWHERINO_BAD_PARTY 16u      /* a party above 7, in a line or in the call; or one other than 0 named for edition 1 */
/* By the caller. */
#define GAWHERINO_BAD_TABLE 8u       /* the numbers are no prepared plan */
#define GAWHERINO_SHORT_BUFFER 9u    /* a lent slice is too short */
#define GAWHERINO_BAD_RECORD 10u     /* the bytes are no record of this table */
#define GAWHERINO_SEVERAL_STAKES 14u /* a booking is due and two or more stakes are possible: preparing did not make this table, or no walk
                                        reaches the record's booked stake */
/* By the logger. */
#define GAWHERINO_TOO_MANY_LEGS 11u  /* 1,000,000 legs are taken */
#define GAWHERINO_BAD_NUMBER 12u     /* a code or a stake in the call is not the plan's */
#define GAWHERINO_NO_WAY 13u         /* no way on the plan fits the codes; at opening and for a whole walk: there are no starts */

/* Who can cause a refusal: what gawherino_group answers. */
#define GAWHERINO_NOBODY 0u
#define GAWHERINO_AUTHOR 1u
#define GAWHERINO_CALLER 2u
#define GAWHERINO_LOGGER 3u

/* SIZES */

/* Of a plan: stakes n, codes m, lines e and bytes. */
#define GAWHERINO_MAX_STAKES 64u
#define GAWHERINO_MAX_CODES 32u
#define GAWHERINO_MAX_LINES 4096u
#define GAWHERINO_MAX_PLAN 65535u
/* Parties are 0 to 7. */
#define GAWHERINO_PARTIES 8u
/* What any plan needs at most: its look-ahead k; the numbers of its table, 4 + n * m; the bytes of its record, 8 + k; the bytes for the
 * codes of evidence, n * n; the sets of an ending, k; the bytes of its one form, 16 + p + 4 * e; the needs of its critical sets,
 * n * m + 1; the bytes of its page, 41 for each of these that has a line. */
#define GAWHERINO_MAX_LOOKAHEAD 2016u
#define GAWHERINO_MAX_TABLE 2052u
#define GAWHERINO_MAX_RECORD 2024u
#define GAWHERINO_MAX_LETTERS 4096u
#define GAWHERINO_MAX_SETS 2016u
#define GAWHERINO_MAX_WRITTEN 16464u
#define GAWHERINO_MAX_NEEDS 2049u
#define GAWHERINO_MAX_PAGE 84009u
/* The most legs of one walk. */
#define GAWHERINO_MAX_LEGS 1000000u
/* The bytes of a line of a page, its line feed among them. */
#define GAWHERINO_PAGE_LINE 41u

/* Places of the further values of reading, and how many there are. */
#define GAWHERINO_COUNT_CODES 0  /* m */
#define GAWHERINO_COUNT_STARTS 1 /* p */
#define GAWHERINO_COUNT_LINES 2  /* e */
#define GAWHERINO_COUNTS 3

/* Places of evidence and of a claim, and how many there are: the critical set's stake and code, two stakes s < t of it, and how many codes
 * the lead-in and the loop have. */
#define GAWHERINO_EVIDENCE_STAKE 0
#define GAWHERINO_EVIDENCE_CODE 1
#define GAWHERINO_EVIDENCE_S 2
#define GAWHERINO_EVIDENCE_T 3
#define GAWHERINO_EVIDENCE_LEAD_IN 4
#define GAWHERINO_EVIDENCE_LOOP 5
#define GAWHERINO_EVIDENCE 6

/* Places of the sets of a verdict, and how many there are. */
#define GAWHERINO_VERDICT_WALKS 0       /* the stakes of the set that can walk the word */
#define GAWHERINO_VERDICT_NONSELECTED 1 /* those for which it is a maximal nonselector */
#define GAWHERINO_VERDICT 2

/* Bytes of stack that a call took at most where conformance/stack.sh measured it, rounded up; the greatest of them. Where memcpy, memmove
 * or memset is bound at its first call, the dynamic linker's stack comes on top. */
#define GAWHERINO_STACK_READ 33280u
#define GAWHERINO_STACK_PREPARE 45568u
#define GAWHERINO_STACK_LOOK_AHEAD 45568u
#define GAWHERINO_STACK_COUNT 49664u
#define GAWHERINO_STACK_CHECK 33280u
#define GAWHERINO_STACK_WRITE 35328u
#define GAWHERINO_STACK_NEEDS 45056u
#define GAWHERINO_STACK_PAGE 49152u
#define GAWHERINO_STACK_STEP 256u
#define GAWHERINO_STACK_WALK 256u
#define GAWHERINO_STACK_JUDGE 256u
#define GAWHERINO_STACK_OPEN 256u
#define GAWHERINO_STACK_FEED 256u
#define GAWHERINO_STACK_FINISH 16384u
#define GAWHERINO_STACK_GROUP 256u
#define GAWHERINO_MAX_STACK 49664u

/* FORMS
 *
 * A set of stakes is a 64-bit number, bit s for stake s.
 *
 * A plan is bytes: documents 01 and 02 and README.md have their layout. One plan may be laid out in many ways; gawherino_write puts it into
 * one form. In edition 2 each line belongs to a party, and a call that names one uses that party's lines alone, with the starts and counts
 * of all; in edition 1 all lines are party 0's. A party without lines is fine. A table does not say whose it is.
 *
 * A table is 64-bit numbers: n, m, k, the starts, then at 4 + stake * m + code the set of stakes that the code leads to. They stand in the
 * machine's own byte order: keep the plan, and prepare it again on each machine, by the same version of this library.
 *
 * A record is bytes, the same on every machine. It may be stored, copied and sent. It is a walk on one table and does not say on which; it
 * has no checksum, and a torn one may pass for another record (examples/c/restart.c shows how to keep it).
 *
 *     bytes 0 to 3   legs taken, little-endian, at most 1,000,000
 *     byte  4        the last booked stake; 255 before the first
 *     byte  5        0
 *     bytes 6, 7     how many codes are held, little-endian: the smaller of the legs taken and k
 *     from byte 8    k bytes: the held codes, oldest first, then zeros
 */

/* CALLS ON A PLAN */

/* Reading a plan: n; into counts (3): m, p and e, of all parties. Refused with 1 to 7, 16, 9. */
uint32_t gawherino_read(const uint8_t *plan, size_t plan_len, uint32_t *counts, size_t counts_len);

/* Preparing a plan for a party: k, and its table (4 + n * m numbers). Refused with 1 to 7, 16, 9, 15.
 * A critical set counts if it is the set of starts, or what a code leads to from a stake that some walk from a start reaches: stakes that
 * no walk reaches any more neither raise k nor cause 15.
 * Under 15, into evidence (6): the critical set's stake and code, stakes s and t, the lengths of the lead-in and of the loop; and into
 * letters (n * n bytes) the lead-in's codes and then the loop's codes. */
uint32_t gawherino_prepare(const uint8_t *plan, size_t plan_len, uint32_t party, uint64_t *table, size_t table_len, uint8_t *letters,
                           size_t letters_len, uint32_t *evidence, size_t evidence_len);

/* The count call: k for a party, without a table; its evidence as under preparing. Refused with 1 to 7, 16, 9, 15. */
uint32_t gawherino_look_ahead(const uint8_t *plan, size_t plan_len, uint32_t party, uint8_t *letters, size_t letters_len,
                              uint32_t *evidence, size_t evidence_len);

/* The drawing program's entry: k for party 0, with no lent buffer. Refused with 1 to 7, 16, 15. */
uint32_t gawherino_count(const uint8_t *plan, size_t plan_len);

/* The check of a claim for a party, given as evidence is: 1 for yes, 0 for no; a claim of fewer than six numbers is no, numbers past the
 * sixth are not read; a claim that names the critical set of a stake that no walk of the party reaches is no. Refused with 1 to 7, 16. */
uint32_t gawherino_check(const uint8_t *plan, size_t plan_len, uint32_t party, const uint32_t *claim, size_t claim_len,
                         const uint8_t *letters, size_t letters_len);

/* Writing a plan in its one form: how many bytes it wrote; into out (16 + p + 3 * e bytes, in edition 2 16 + p + 4 * e, also where the plan
 * has more): the plan, in its edition, its starts at 16, ascending, and its lines directly behind them, ascending by from, code, to, party.
 * Within an edition equal n, m, starts and lines give equal bytes, and different ones different bytes. Refused with 1 to 7, 16, 9. */
uint32_t gawherino_write(const uint8_t *plan, size_t plan_len, uint8_t *out, size_t out_len);

/* The need of each critical set by itself, for a party: how many numbers it wrote, n * m + 1; into needs: at 0 that of the starts, at
 * 1 + stake * m + code that of what the code leads to from the stake. A need is the least k for which no two different stakes of the set
 * can be walked on from by the same k codes: 0 for a set of one stake, never more than 2,016. 65,535 is a set that has none, 65,534 one
 * that is empty, the starts too, or does not count (a fork of a stake that no walk reaches). If no number is 65,535, the party's k is the
 * largest of those other than 65,534, or 0 if there is no other; else preparing and the count answer 15, lent slices being long enough.
 * Refused with 1 to 7, 16, 9, and never with 15. */
uint32_t gawherino_needs(const uint8_t *plan, size_t plan_len, uint32_t party, uint16_t *needs, size_t needs_len);

/* The needs for a party as a page to hang up: 0; into length (1): how many bytes it wrote, 41 for each set that counts and is not empty;
 * into page: those sets' lines in the order of gawherino_needs, each of 40 characters and a line feed. Columns 1 to 4 have the stake and 6
 * to 9 the code, both right-aligned (for the starts `from`, and blanks for the code); 11 to 16 the need, right-aligned, or a dash in column
 * 16 where there is none; 18 to 40 a bar, a hash sign for each stake of the set, 23 at the most. All other columns are blanks, the trailing
 * ones too. A plan has a page also where preparing answers 15; one without starts has an empty page. Refused with 1 to 7, 16, and with 9
 * where fewer bytes are lent than this page has. */
uint32_t gawherino_page(const uint8_t *plan, size_t plan_len, uint32_t party, uint8_t *page, size_t page_len, uint64_t *length,
                        size_t length_len);

/* CALLS ON A TABLE */

/* A step by one code from any set of stakes, the empty one too: its rounds, one for each stake of the set; into next (1): the stakes that
 * the code leads to from them, 0 if it leads nowhere. Steps along the codes of a walk, the first from the starts (table[3]) and each other
 * one from the set that the one before gave, give the stakes reached. Refused with 8, 9, 12; 12 if the code is not below m or the set has
 * a bit n or higher. */
uint32_t gawherino_step(const uint64_t *table, size_t table_len, uint64_t set, uint32_t letter, uint64_t *next, size_t next_len);

/* A whole walk: 0; into length (1): g; into sets (one more than the word has codes): the possible stakes at 0 to g.
 * Refused with 8, 9, 12, 13. */
uint32_t gawherino_walk(const uint64_t *table, size_t table_len, const uint8_t *word, size_t word_len, uint64_t *sets, size_t sets_len,
                        uint64_t *length, size_t length_len);

/* The verdict on a word for a critical set, also one that does not count: 1 if it is a minimal selector, else 0; into sets (2): the stakes
 * of the set that can walk the word, and those for which it is a maximal nonselector. Refused with 8, 9, 12. */
uint32_t gawherino_judge(const uint64_t *table, size_t table_len, uint32_t state, uint32_t letter, const uint8_t *word, size_t word_len,
                         uint64_t *sets, size_t sets_len);

/* CALLS ON A WALK'S RECORD */

/* Opening a walk on a record (8 + k bytes, of any content): the booked stake, with its position into position (1), or 255 if none was
 * booked. Refused with 8, 9, 13, 14. */
uint32_t gawherino_open(const uint64_t *table, size_t table_len, uint8_t *rec, size_t rec_len, uint32_t *position, size_t position_len);

/* A leg, its code any number: answers as opening does. Refused with 8 to 14; 12 if the code is not below m. A record that a walk on
 * this table left never meets 14, if preparing made the table; one that none left (made up, torn, another plan's) may, where no walk
 * reaches its booked stake, for 10 does not look at that. */
uint32_t gawherino_feed(const uint64_t *table, size_t table_len, uint8_t *rec, size_t rec_len, uint32_t letter, uint32_t *position,
                        size_t position_len);

/* Ending a walk: how many positions are not booked; into sets (room for k is needed, and as many are written as is answered): their
 * possible stakes, lowest position first. The record is kept, and the walk may go on. Refused with 8, 9, 10. */
uint32_t gawherino_finish(const uint64_t *table, size_t table_len, const uint8_t *rec, size_t rec_len, uint64_t *sets, size_t sets_len);

/* REFUSALS */

/* Who can cause a refusal, given its number as GAWHERINO_REFUSAL gives it: GAWHERINO_AUTHOR, _CALLER or _LOGGER; GAWHERINO_NOBODY for a
 * number that is no refusal's. */
uint32_t gawherino_group(uint32_t refusal);

#ifdef __cplusplus
}
#endif

#endif
