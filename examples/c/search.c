/*
 * Whole searches by include/finder.h: the papers of examples/two-sensors, in
 * memory, a few scenarios a call, without held faults and with one. Then a file
 * and a sheet that are refused, and calls that are.
 *
 * It knows what must come out, and ends with status 1 where anything else does.
 * It is C99 and C++11 at once.
 */

#include "finder.h"

#include <stdio.h>
#include <string.h>

/* The states of a search, slot 7. */
#define GOING 0
#define FULL 1
#define ENDED 2

/* No dual is longer. */
#define LONGEST_DUAL 52488

#define ALLOWANCE 7
#define ROOM 16

/* A two-byte number, high byte first. */
#define NUMBER(n) (n) / 256, (n) % 256

/* A literal of an atom: as it is, default negated, explicitly negated. */
#define IS(atom) NUMBER(4 * (atom))
#define IS_NOT(atom) NUMBER(4 * (atom) + 1)
#define IS_DENIED(atom) NUMBER(4 * (atom) + 2)

/* The head of a rule: an atom, or its explicit negation. */
#define HEAD(atom) NUMBER(2 * (atom))
#define DENIES(atom) NUMBER(2 * (atom) + 1)

/* The faults, which may be assumed and ruled out, and the other atoms. */
enum { FLOAT_STUCK, PROBE_STUCK, SUCTION_LINE_LEAKS, ALARM_MUTED, FAULTS };
enum { FLOAT_DOWN = FAULTS, PROBE_READS_FUEL, TANK_DRY, PUMPS_DRAW_AIR, ALARM_SILENT, ATOMS };

/* docs/FORMAT.md has the fields: a tag, the length of the content, the content. */
static const uint8_t file[] = {
    0x01, NUMBER(1), 1, /* edition */
    0x02, NUMBER(2), NUMBER(ATOMS),
    0x03, NUMBER(8), NUMBER(FLOAT_STUCK), NUMBER(PROBE_STUCK), NUMBER(SUCTION_LINE_LEAKS), NUMBER(ALARM_MUTED),
    0x04, NUMBER(2), HEAD(FLOAT_DOWN),
    0x04, NUMBER(2), HEAD(PROBE_READS_FUEL),
    0x04, NUMBER(6), HEAD(TANK_DRY), IS(FLOAT_DOWN), IS_NOT(FLOAT_STUCK),
    0x04, NUMBER(6), DENIES(TANK_DRY), IS(PROBE_READS_FUEL), IS_NOT(PROBE_STUCK),
    0x04, NUMBER(4), HEAD(PUMPS_DRAW_AIR), IS(TANK_DRY),
    0x04, NUMBER(4), HEAD(PUMPS_DRAW_AIR), IS(SUCTION_LINE_LEAKS),
    0x04, NUMBER(4), HEAD(ALARM_SILENT), IS_DENIED(TANK_DRY),
    0x04, NUMBER(4), HEAD(ALARM_SILENT), IS(ALARM_MUTED),
    0x05, NUMBER(4), IS(TANK_DRY), IS_DENIED(TANK_DRY), /* falsum */
    0x7F, NUMBER(0) /* end */
};

static const uint8_t sheet[] = {
    0x06, NUMBER(4), IS(PUMPS_DRAW_AIR), IS(ALARM_SILENT),
    0x7F, NUMBER(0)
};

/* A literal of an atom that the file does not have. */
static const uint8_t wrong_sheet[] = {
    0x06, NUMBER(2), IS(ATOMS),
    0x7F, NUMBER(0)
};

/* The smallest explanations of the call, rising, and those without a muted alarm. */
static const uint32_t expected[] = { 15, 29, 37, 39 };
static const uint32_t expected_unmuted[] = { 69 };
#define LENGTH(array) (sizeof(array) / sizeof(array)[0])

/* The bit of a fault in a mask. */
#define BIT(fault) ((uint16_t)(1u << (fault)))

static uint8_t dual[LONGEST_DUAL];
static uint32_t list[ROOM];
static int failures;

static void check(int holds, const char *what)
{
    if (!holds) {
        fprintf(stderr, "search: not so: %s\n", what);
        failures++;
    }
}

/* Digit i of a scenario in base 3 is of fault i: 0 open, 1 assumed, 2 ruled out. */
static void print_explanation(uint32_t scenario)
{
    unsigned fault;

    printf("found %u", (unsigned)scenario);
    for (fault = 0; scenario > 0; fault++) {
        if (scenario % 3 != 0)
            printf(" %u%c", fault, scenario % 3 == 1 ? '+' : '-');
        scenario /= 3;
    }
    printf("\n");
}

static void print_refusal(const uint64_t out[8])
{
    printf("refused %u %s %u\n", (unsigned)out[0], out[1] == 0 ? "file" : "sheet", (unsigned)out[2]);
}

/* A search that holds the faults of the mask as ruled out. */
static void search(uint16_t ruled, const uint32_t *entries, size_t count, uint64_t all_rounds)
{
    const uint16_t assumed = 0;
    uint32_t position, found;
    uint64_t tried = 0, rounds = 0;
    uint64_t out[8];

    finder_fresh(file, sizeof file, assumed, ruled, out);
    check(out[0] == 0 && out[5] == assumed && out[6] == ruled, "the search is begun with these masks");
    position = (uint32_t)out[3];
    found = (uint32_t)out[4];
    do {
        uint32_t entry = found;

        finder_continue(file, sizeof file, sheet, sizeof sheet, dual, sizeof dual, list, ROOM, position, found, assumed, ruled, ALLOWANCE, out);
        if (out[0] != 0) {
            check(0, "the call is not refused");
            return;
        }
        /* These two, the masks and the list are what the next call goes on from. */
        position = (uint32_t)out[3];
        found = (uint32_t)out[4];
        tried += out[5];
        rounds += out[6];
        for (; entry < found; entry++)
            print_explanation(list[entry]);
        /* A call that leaves the search going has tried as many as it was allowed. */
    } while (out[7] == GOING && out[5] == ALLOWANCE);

    printf("%s", out[7] == ENDED ? "ended" : out[7] == FULL ? "full" : "going");
    printf(" tried %u rounds %u\n", (unsigned)tried, (unsigned)rounds);
    check(out[7] == ENDED, "the search has ended");
    check(found == count && memcmp(list, entries, count * sizeof *entries) == 0, "the entries are those expected");
    check(tried == 81 && rounds == all_rounds, "81 scenarios are tried in so many rounds");
}

static void refusals(void)
{
    const size_t end = sizeof file - 3; /* where the last field begins */
    uint64_t out[8];

    /* The file lacks its last byte: 1 cut, and the rest begins with that field. */
    finder_rest(file, sizeof file - 1, sheet, sizeof sheet, out);
    print_refusal(out);
    check(out[0] == 1 && out[1] == 0 && out[2] == end && out[3] == 2, "the file is cut in its last field");

    /* 6 unlisted, in the sheet's first field. */
    finder_rest(file, sizeof file, wrong_sheet, sizeof wrong_sheet, out);
    print_refusal(out);
    check(out[0] == 6 && out[1] == 1 && out[2] == 0 && out[3] == sizeof wrong_sheet, "the sheet has an unlisted literal");

    finder_rest(file, sizeof file, sheet, sizeof sheet, out);
    check(out[0] == 0 && out[1] == 0 && out[2] == 0 && out[3] == 0, "both papers are accepted");

    /* 15: a fault is not held both ways. Masks are the fault of no paper. */
    finder_fresh(file, sizeof file, BIT(ALARM_MUTED), BIT(ALARM_MUTED), out);
    printf("refused %u\n", (unsigned)out[0]);
    check(out[0] == 15 && out[1] == 0 && out[2] == 0, "the masks share a bit");

    /* Continuing refuses the same file, and gives the record back as it was. */
    finder_continue(file, sizeof file - 1, sheet, sizeof sheet, dual, sizeof dual, list, ROOM, 81, 1, 0, BIT(ALARM_MUTED), ALLOWANCE, out);
    print_refusal(out);
    check(out[0] == 1 && out[1] == 0 && out[2] == end, "continuing tells the same of the file");
    check(out[3] == 81 && out[4] == 1 && out[5] == 0, "the record is as it was");

    /* 11 short dual names no paper. */
    finder_continue(file, sizeof file, sheet, sizeof sheet, dual, 1, list, ROOM, 81, 1, 0, BIT(ALARM_MUTED), ALLOWANCE, out);
    printf("refused %u\n", (unsigned)out[0]);
    check(out[0] == 11 && out[1] == 0 && out[2] == 0, "a dual buffer of one byte is short");
    check(out[3] == 81 && out[4] == 1 && out[5] == 0, "the record is as it was");
    check(list[0] == expected_unmuted[0], "the list is as it was");
}

int main(void)
{
    search(0, expected, LENGTH(expected), 180);
    search(BIT(ALARM_MUTED), expected_unmuted, LENGTH(expected_unmuted), 60);
    refusals();
    return failures == 0 ? 0 : 1;
}
