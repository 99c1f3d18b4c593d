/* A walk that is kept across restarts and power cuts. A record has no checksum, and some half-written ones, or one of another plan, pass as
 * a record of a walk that never was; so it is never written over its last good copy. There are two slots. Each save goes to the older one,
 * with the next number and a checksum over the plan and the whole slot; after a restart the newest slot whose checksum fits is taken. A cut
 * in the middle of a save leaves that slot torn, which the checksum shows, and the other one whole, a code older. A slot also says how many
 * codes had been offered, refused ones too, so that the logger knows from which code on to give them again. On a real device a save must
 * have reached it before the next one begins. Before a new walk on the same plan both slots are cleared.
 *
 * The storage here is an array, and a cut stops a save after any number of bytes. Every cut of every save is tried: each time the walk is
 * taken up again from the slots and must end with the bookings and the record of a walk without a cut. Then a record without slots is
 * torn, and it is shown that a torn one may pass. The exit status is 0 only if all of it comes out as expected.
 *
 *     bash tools/build.sh gawherino && gcc -std=c99 -Iinclude examples/c/restart.c target/staticlib/libgawherino.a -o restart && ./restart
 */
#include "gawherino.h"

#include <stdio.h>
#include <string.h>

/* Plan G of document 01: 3 stakes, 2 codes, starts 0 and 1; lines 0-0-1, 1-0-2, 1-1-0, 2-1-2. Its look-ahead is 3. */
static const uint8_t plan[30] = {1, 0, 3, 0, 2, 0, 2, 0, 4, 0, 16, 0, 18, 0, 30, 0, /* the eight numbers */
                                 0, 1,                                              /* the starts */
                                 0, 0, 1, 1, 0, 2, 1, 1, 0, 2, 1, 2};               /* the lines */

/* The same with 2-1-1 for the last line. */
static const uint8_t redrawn[30] = {1, 0, 3, 0, 2, 0, 2, 0, 4, 0, 16, 0, 18, 0, 30, 0, 0, 1, 0, 0, 1, 1, 0, 2, 1, 1, 0, 2, 1, 1};

/* The logger's codes; the fourth is none of the plan's and is refused. */
enum { CODES = 9, LEGS = 8 };
static const uint32_t codes[CODES] = {0, 1, 0, 256, 0, 1, 1, 1, 1};

static uint64_t table[GAWHERINO_MAX_TABLE];

/* A slot: how many saves there were when it was written (4 bytes), how many codes had been offered (4 bytes), the record, 8 + k bytes, and a
 * checksum (4 bytes). */
#define SLOT (4 + 4 + GAWHERINO_MAX_RECORD + 4)
static uint8_t storage[2][SLOT];

static int wrong = 0;

static void expect(const char *what, uint64_t got, uint64_t wanted)
{
    if (got != wanted) {
        fprintf(stderr, "%s: %lu instead of %lu\n", what, (unsigned long)got, (unsigned long)wanted);
        wrong = 1;
    }
}

static void put32(uint8_t *at, uint32_t x)
{
    at[0] = (uint8_t)x, at[1] = (uint8_t)(x >> 8), at[2] = (uint8_t)(x >> 16), at[3] = (uint8_t)(x >> 24);
}

static uint32_t get32(const uint8_t *at)
{
    return (uint32_t)at[0] | (uint32_t)at[1] << 8 | (uint32_t)at[2] << 16 | (uint32_t)at[3] << 24;
}

/* CRC-32 of some bytes, behind those that gave crc; the first are given 0. */
static uint32_t checksum(uint32_t crc, const uint8_t *bytes, size_t length)
{
    int bit;
    for (crc = ~crc; length > 0; length--) {
        crc ^= *bytes++;
        for (bit = 0; bit < 8; bit++)
            crc = crc >> 1 ^ (crc & 1 ? 0xEDB88320u : 0);
    }
    return ~crc;
}

/* The plan's bytes come first, so that a slot of another plan does not fit. */
static uint32_t checksum_of(const uint8_t *drawn, const uint8_t *slot, uint32_t length)
{
    return checksum(checksum(0, drawn, sizeof plan), slot, 8 + (size_t)length);
}

/* The number of a slot that was written whole for this plan, else 0. */
static uint32_t number_of(const uint8_t *drawn, const uint8_t *slot, uint32_t length)
{
    return get32(slot + 8 + length) == checksum_of(drawn, slot, length) ? get32(slot) : 0;
}

/* Saves into the older slot; the power is cut after so many bytes. Whether the save was whole. */
static int save(const uint8_t *record, uint32_t length, uint32_t offered, size_t cut)
{
    uint8_t slot[SLOT];
    uint32_t a = number_of(plan, storage[0], length), b = number_of(plan, storage[1], length);
    size_t whole = 8 + (size_t)length + 4;
    put32(slot, (a > b ? a : b) + 1);
    put32(slot + 4, offered);
    memcpy(slot + 8, record, length);
    put32(slot + 8 + length, checksum_of(plan, slot, length));
    memcpy(storage[a > b], slot, cut < whole ? cut : whole);
    return cut >= whole;
}

/* Takes the newest whole slot's record and how many codes had been offered; answers its number, or 0 if there is none. */
static uint32_t load(const uint8_t *drawn, uint8_t *record, uint32_t length, uint32_t *offered)
{
    uint32_t a = number_of(drawn, storage[0], length), b = number_of(drawn, storage[1], length);
    const uint8_t *slot = storage[b > a];
    if (a == 0 && b == 0)
        return 0;
    *offered = get32(slot + 4);
    memcpy(record, slot + 8, length);
    return a > b ? a : b;
}

/* What was booked at each position; 255 where nothing is. */
static uint8_t bookings[LEGS + 1];

/* Walks on from what is stored to the last code, saving after opening and after each code. The power is cut in save number cut_save, after
 * cut bytes. Answers how many legs the record has, or -1 after a cut or a refusal that ends the walk. */
static int walk_on(uint8_t *record, uint32_t length, uint32_t cut_save, size_t cut)
{
    uint32_t position[1], stake, offered = 0, saves = load(plan, record, length, &offered);
    if (saves == 0) {
        stake = gawherino_open(table, GAWHERINO_MAX_TABLE, record, GAWHERINO_MAX_RECORD, position, 1);
        expect("opening", stake, GAWHERINO_NOTHING);
        if (!save(record, length, 0, ++saves == cut_save ? cut : SLOT))
            return -1;
    }
    while (offered < CODES) {
        stake = gawherino_feed(table, GAWHERINO_MAX_TABLE, record, GAWHERINO_MAX_RECORD, codes[offered], position, 1);
        if (GAWHERINO_IS_REFUSED(stake)) {
            /* a refused code changes nothing, and the walk may go on */
            expect("the refusal", GAWHERINO_REFUSAL(stake), GAWHERINO_BAD_NUMBER);
            expect("of the fourth code", offered, 3);
        } else if (stake != GAWHERINO_NOTHING) {
            bookings[position[0]] = (uint8_t)stake; /* the same again, if the leg was booked before the cut */
        }
        if (!save(record, length, ++offered, ++saves == cut_save ? cut : SLOT))
            return -1;
    }
    return (int)get32(record);
}

int main(void)
{
    uint8_t letters[GAWHERINO_MAX_LETTERS], record[GAWHERINO_MAX_RECORD], after[GAWHERINO_MAX_RECORD];
    uint8_t expected_bookings[LEGS + 1], expected_record[GAWHERINO_MAX_RECORD];
    uint32_t evidence[GAWHERINO_EVIDENCE], position[1], k, length, cut_save, i, offered = 0, passed = 0, cuts = 0;
    size_t cut;

    k = gawherino_prepare(plan, sizeof plan, 0, table, GAWHERINO_MAX_TABLE, letters, sizeof letters, evidence, GAWHERINO_EVIDENCE);
    expect("look-ahead", k, 3);
    if (GAWHERINO_IS_REFUSED(k))
        return 1;
    length = 8 + k;

    /* without a cut: 8 legs book positions 0 to 5 */
    memset(bookings, 255, sizeof bookings);
    expect("legs", (uint64_t)walk_on(record, length, 0, 0), LEGS);
    memcpy(expected_bookings, bookings, sizeof bookings);
    memcpy(expected_record, record, length);
    for (i = 0; i <= LEGS - k; i++)
        printf("at %u stake %u\n", (unsigned)i, (unsigned)bookings[i]);
    expect("booked at 5", bookings[5], 2);
    expect("not booked at 6", bookings[6], 255);

    /* every cut of every save: the walk goes on from the slots */
    for (cut_save = 1; cut_save <= CODES + 1; cut_save++)
        for (cut = 0; cut < 8 + (size_t)length + 4; cut++) {
            memset(storage, 0, sizeof storage);
            memset(bookings, 255, sizeof bookings);
            memset(record, 0xEE, sizeof record);
            expect("the cut", (uint64_t)(walk_on(record, length, cut_save, cut) == -1), 1);
            memset(record, 0xEE, sizeof record); /* what was in memory is gone */
            expect("legs after a cut", (uint64_t)walk_on(record, length, 0, 0), LEGS);
            expect("bookings after a cut", (uint64_t)(memcmp(bookings, expected_bookings, sizeof bookings) == 0), 1);
            expect("the record after a cut", (uint64_t)(memcmp(record, expected_record, length) == 0), 1);
            cuts++;
        }
    printf("%u cuts: each time the walk went on\n", (unsigned)cuts);

    /* the slots are there, and on another plan they are not taken */
    expect("a slot of this plan", load(plan, record, length, &offered), CODES + 1);
    expect("codes offered", offered, CODES);
    expect("a slot of another plan", load(redrawn, record, length, &offered), 0);

    /* the same without slots: a leg's record written over the record before it, cut after so many bytes */
    gawherino_open(table, GAWHERINO_MAX_TABLE, record, sizeof record, position, 1);
    for (i = 0; i < CODES; i++) {
        memcpy(after, record, length);
        gawherino_feed(table, GAWHERINO_MAX_TABLE, after, sizeof after, codes[i], position, 1);
        for (cut = 1; cut < length; cut++) {
            uint8_t torn[GAWHERINO_MAX_RECORD];
            uint64_t sets[GAWHERINO_MAX_SETS];
            memcpy(torn, record, length);
            memcpy(torn, after, cut);
            if (memcmp(torn, record, length) == 0 || memcmp(torn, after, length) == 0)
                continue;
            passed += !GAWHERINO_IS_REFUSED(gawherino_finish(table, GAWHERINO_MAX_TABLE, torn, sizeof torn, sets, GAWHERINO_MAX_SETS));
        }
        memcpy(record, after, length);
    }
    printf("without slots: %u torn records passed as another record\n", (unsigned)passed);
    expect("some torn record passes", passed > 0, 1);
    return wrong;
}
