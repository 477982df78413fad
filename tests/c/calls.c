/*
 * Each function of the library called for an answer and for its refusals, with the worked cases of
 * the requirements. The memory that is lent lies between guard bytes, and whatever a call is not
 * to write must be as it was.
 */
#include "bixtogan.h"

#include <stdio.h>
#include <string.h>

#define LENGTH(array) (sizeof(array) / sizeof((array)[0]))

#define GUARD 32
#define ROOM 2048
#define OLD 0xa5
#define OLD_VALUE 77

#define TOP BIXTOGAN_TOP

static int passed, failed;

static void expect(int holds, const char *what)
{
    if (holds) {
        passed++;
    } else {
        failed++;
        fprintf(stderr, "failed: %s\n", what);
    }
}

/* Lent memory. */

static uint8_t memory[GUARD + ROOM + GUARD];
static uint8_t *const out = memory + GUARD;

/* What the functions put their values into. */
static uint64_t value;
static uint8_t answer;

static void lend(void)
{
    memset(memory, OLD, sizeof memory);
    value = OLD_VALUE;
    answer = OLD_VALUE;
}

/* Whether every byte but the first `written` of out is as it was. */
static int unwritten_past(size_t written)
{
    const uint8_t *byte;

    for (byte = memory; byte < memory + sizeof memory; byte++)
        if ((byte < out || byte >= out + written) && *byte != OLD)
            return 0;
    return 1;
}

static int wrote(const uint8_t *bytes, size_t length)
{
    return memcmp(out, bytes, length) == 0 && unwritten_past(length);
}

static int wrote_nothing(void)
{
    return unwritten_past(0) && value == OLD_VALUE && answer == OLD_VALUE;
}

/* Sheets. */

static const uint8_t chain[] = {
    1, 12,
    2, 0, 1,  2, 0, 2,  2, 3, 4,  2, 3, 5,  2, 6, 7,  2, 8, 9,  2, 10, 11,
    3, 1, 6,  3, 2, 8,  3, 4, 8,  3, 5, 10,
    0,
};
static const uint8_t chain_untidy[] = {
    1, 12,
    3, 5, 10,  2, 10, 11,  2, 8, 9,  3, 4, 8,  2, 6, 7,  2, 3, 5,  2, 3, 4,  3, 2, 8,
    2, 0, 2,  2, 0, 1,  3, 1, 6,
    0,
};
static const uint8_t loop[] = {1, 2, 2, 0, 1, 3, 1, 0, 0};
static const uint8_t forked[] = {1, 5, 2, 0, 1, 2, 0, 2, 2, 3, 4, 3, 1, 3, 3, 2, 3, 0};
static const uint8_t square[] = {
    1, 8,
    2, 0, 1,  2, 2, 3,  2, 4, 5,  2, 6, 7,
    3, 1, 4,  3, 1, 6,  3, 3, 4,  3, 3, 6,
    0,
};

/* The chain of two with labels: 7, 9 and 11 are constants, the leaves above them holes. */
static const uint8_t chain_labelled[] = {
    1, 12,
    6,  5, 0, 128,  3, 5, 10,  2, 10, 11,  2, 8, 9,  5, 3, 191,  3, 4, 8,  2, 6, 7,  5, 7, 0,
    2, 3, 5,  2, 3, 4,  5, 6, 64,  3, 2, 8,  5, 8, 127,  5, 9, 63,  6,  3, 2, 8,  2, 0, 2,
    2, 0, 1,  5, 10, 100,  3, 1, 6,  5, 11, 1,
    0,
};

static size_t put(uint8_t *sheet, size_t at, int command, int a, int b)
{
    sheet[at] = (uint8_t)command;
    sheet[at + 1] = (uint8_t)a;
    sheet[at + 2] = (uint8_t)b;
    return at + 3;
}

/*
 * The chain of k, continued in the manner of the chain of two: k fragments with two leaves, each
 * leaf with a dominance edge to one of k + 1 fragments with one leaf.
 */
static size_t chain_of(int k, uint8_t *sheet)
{
    size_t at = 0;
    int i;

    sheet[at++] = 1;
    sheet[at++] = (uint8_t)(5 * k + 2);
    for (i = 0; i < k; i++) {
        at = put(sheet, at, 2, 3 * i, 3 * i + 1);
        at = put(sheet, at, 2, 3 * i, 3 * i + 2);
    }
    for (i = 0; i <= k; i++)
        at = put(sheet, at, 2, 3 * k + 2 * i, 3 * k + 2 * i + 1);
    for (i = 0; i < k; i++) {
        at = put(sheet, at, 3, 3 * i + 1, 3 * k + 2 * i);
        at = put(sheet, at, 3, 3 * i + 2, 3 * k + 2 * i + 2);
    }
    sheet[at++] = 0;
    return at;
}

/* Two fragments of two nodes, and the dominance edge from 1 to 2 so many times. */
static size_t with_repeats(int times, uint8_t *sheet)
{
    size_t at = 2;

    sheet[0] = 1;
    sheet[1] = 4;
    at = put(sheet, at, 2, 0, 1);
    at = put(sheet, at, 2, 2, 3);
    while (times-- > 0)
        at = put(sheet, at, 3, 1, 2);
    sheet[at++] = 0;
    return at;
}

/* 32 fragments of two nodes, and so many dominance edges, at most 256. */
static size_t with_edges(int edges, uint8_t *sheet)
{
    size_t at = 0;
    int i;

    sheet[at++] = 1;
    sheet[at++] = 64;
    for (i = 0; i < 32; i++)
        at = put(sheet, at, 2, 2 * i, 2 * i + 1);
    for (i = 0; i < edges; i++)
        at = put(sheet, at, 3, 2 * (i / 16) + 1, 2 * (i % 16));
    sheet[at++] = 0;
    return at;
}

/* So many nodes and these edges: `edges` of them, three bytes each. */
static size_t with_nodes(int nodes, const uint8_t *commands, int edges, uint8_t *sheet)
{
    size_t length = 3 * (size_t)edges;

    sheet[0] = 1;
    sheet[1] = (uint8_t)nodes;
    memcpy(sheet + 2, commands, length);
    sheet[2 + length] = 0;
    return 3 + length;
}

/* The same fragments and edges with labels: 64 for each root. */
static size_t with_labelled_edges(int edges, uint8_t *sheet)
{
    size_t at = with_edges(edges, sheet) - 1;
    int i;

    for (i = 0; i < 32; i++)
        at = put(sheet, at, 5, 2 * i, 64);
    sheet[at++] = 6;
    sheet[at++] = 0;
    return at;
}

/* So many fragments of two nodes, each above the next, labelled in the same way. */
static size_t with_labelled_line(int fragments, uint8_t *sheet)
{
    size_t at = 2;
    int i;

    sheet[0] = 1;
    sheet[1] = (uint8_t)(2 * fragments);
    for (i = 0; i < fragments; i++) {
        at = put(sheet, at, 2, 2 * i, 2 * i + 1);
        at = put(sheet, at, 5, 2 * i, 64);
        if (i > 0)
            at = put(sheet, at, 3, 2 * i - 1, 2 * i);
    }
    sheet[at++] = 6;
    sheet[at++] = 0;
    return at;
}

/* So many constants, each alone. */
static size_t with_constants(int nodes, uint8_t *sheet)
{
    size_t at = 2;
    int i;

    sheet[0] = 1;
    sheet[1] = (uint8_t)nodes;
    for (i = 0; i < nodes; i++)
        at = put(sheet, at, 5, i, i % 64);
    sheet[at++] = 6;
    sheet[at++] = 0;
    return at;
}

/* A constant alone, and 0x06 as often as makes this length. */
static size_t with_repeated_differing(size_t length, uint8_t *sheet)
{
    sheet[0] = 1;
    sheet[1] = 1;
    memset(sheet + put(sheet, 2, 5, 0, 7), 6, length - 6);
    sheet[length - 1] = 0;
    return length;
}

/* The calls. */

static void node_numbers(void)
{
    static const uint8_t pair[] = {2, 0, 1};
    static const struct {
        const char *what;
        int nodes, edges;
        uint64_t grown;
    } cases[] = {
        {"1 node alone", 1, 0, 2},
        {"2 nodes alone", 2, 0, 4},
        {"a fragment", 2, 1, 2},
        {"a fragment and a node alone", 3, 1, 4},
        {"64 nodes alone", 64, 0, 128},
        {"a fragment and 63 nodes alone", 65, 1, 128},
    };
    uint8_t sheet[16];
    size_t i, length;

    lend();
    expect(bixtogan_nodes(chain, sizeof chain, &value) == BIXTOGAN_DONE && value == 12,
           "nodes of the chain of two");
    lend();
    expect(bixtogan_nodes(loop, sizeof loop, &value) == BIXTOGAN_DONE && value == 2,
           "nodes where no reading is");
    for (i = 0; i < LENGTH(cases); i++) {
        length = with_nodes(cases[i].nodes, pair, cases[i].edges, sheet);
        lend();
        expect(bixtogan_nodes(sheet, length, &value) == BIXTOGAN_DONE && value == cases[i].grown,
               cases[i].what);
    }
}

static void counts(void)
{
    uint8_t sheet[BIXTOGAN_SHEET_MAX];

    lend();
    expect(bixtogan_count(chain, sizeof chain, &value) == BIXTOGAN_DONE && value == 2,
           "count of the chain of two");
    lend();
    expect(bixtogan_count(sheet, chain_of(8, sheet), &value) == BIXTOGAN_DONE && value == 1430,
           "count of the chain of eight");
    lend();
    expect(bixtogan_count(sheet, chain_of(12, sheet), &value) == BIXTOGAN_DONE
               && value == BIXTOGAN_MORE,
           "count of the chain of twelve");
    lend();
    expect(bixtogan_count(loop, sizeof loop, &value) == BIXTOGAN_NO_READING && wrote_nothing(),
           "count where no reading is");
}

static void readings(void)
{
    static const uint8_t first[12] = {TOP, TOP, TOP, 2, TOP, TOP, 1, TOP, 4, TOP, 5, TOP};
    static const uint8_t second[12] = {4, TOP, TOP, TOP, TOP, TOP, 1, TOP, 2, TOP, 5, TOP};
    uint64_t place = 0;
    uint8_t number, yes = OLD_VALUE;

    lend();
    number = bixtogan_reading(chain, sizeof chain, &place, out, 24, &value);
    expect(number == BIXTOGAN_DONE && place == 1 && wrote(first, 12) && value == OLD_VALUE,
           "reading 1");
    lend();
    number = bixtogan_reading(chain, sizeof chain, &place, out, 24, &value);
    expect(number == BIXTOGAN_DONE && place == 2 && wrote(second, 12) && value == OLD_VALUE,
           "reading 2");
    lend();
    number = bixtogan_reading(chain, sizeof chain, &place, out, 24, &value);
    expect(number == BIXTOGAN_NO_SUCH_READING && place == 2 && wrote_nothing(),
           "reading past the last");
    place = UINT64_MAX;
    number = bixtogan_reading(chain, sizeof chain, &place, out, 24, &value);
    expect(number == BIXTOGAN_NO_SUCH_READING && place == UINT64_MAX && wrote_nothing(),
           "reading past the largest place");
    place = 1;
    number = bixtogan_reading(chain, sizeof chain, &place, out, 23, &value);
    expect(number == BIXTOGAN_SMALL_BUFFER && place == 1 && wrote_nothing(),
           "reading into a small buffer");
    number = bixtogan_reading(loop, sizeof loop, &place, out, ROOM, &value);
    expect(number == BIXTOGAN_NO_READING && place == 1 && value == 2 && unwritten_past(4),
           "reading where none is");
    expect(bixtogan_check_cycle(loop, sizeof loop, out, 4, &yes) == BIXTOGAN_DONE && yes == 1,
           "the cycle of a reading");
}

static void stretches(void)
{
    static const uint8_t both[24] = {
        TOP, TOP, TOP, 2, TOP, TOP, 1, TOP, 4, TOP, 5, TOP,
        4, TOP, TOP, TOP, TOP, TOP, 1, TOP, 2, TOP, 5, TOP,
    };
    uint8_t sheet[BIXTOGAN_SHEET_MAX];
    uint64_t place = 0;
    uint8_t number, yes = OLD_VALUE;

    lend();
    number = bixtogan_readings(chain, sizeof chain, &place, out, ROOM, &value);
    expect(number == BIXTOGAN_DONE && place == 2 && wrote(both, 24) && value == OLD_VALUE,
           "readings 1 and 2");
    lend();
    place = 1;
    number = bixtogan_readings(chain, sizeof chain, &place, out, 24, &value);
    expect(number == BIXTOGAN_DONE && place == 2 && wrote(both + 12, 12), "readings from 2 on");
    lend();
    number = bixtogan_readings(chain, sizeof chain, &place, out, ROOM, &value);
    expect(number == BIXTOGAN_NO_SUCH_READING && place == 2 && wrote_nothing(),
           "readings past the last");
    place = UINT64_MAX;
    number = bixtogan_readings(chain, sizeof chain, &place, out, ROOM, &value);
    expect(number == BIXTOGAN_NO_SUCH_READING && place == UINT64_MAX && wrote_nothing(),
           "readings past the largest place");
    place = 0;
    number = bixtogan_readings(chain, sizeof chain, &place, out, 23, &value);
    expect(number == BIXTOGAN_SMALL_BUFFER && place == 0 && wrote_nothing(),
           "readings into a small buffer");
    /* 42 nodes, and one byte too few for a fourth. */
    number = bixtogan_readings(sheet, chain_of(8, sheet), &place, out, 4 * 42 - 1, &value);
    expect(number == BIXTOGAN_DONE && place == 3 && unwritten_past(3 * 42), "readings as they fit");
    lend();
    place = 1;
    number = bixtogan_readings(loop, sizeof loop, &place, out, ROOM, &value);
    expect(number == BIXTOGAN_NO_READING && place == 1 && value == 2 && unwritten_past(4),
           "readings where none is");
    expect(bixtogan_check_cycle(loop, sizeof loop, out, 4, &yes) == BIXTOGAN_DONE && yes == 1,
           "the cycle of readings");
}

static void configurations(void)
{
    static const uint8_t configured[8] = {TOP, TOP, 1, TOP, 3, TOP, 5, TOP};
    uint8_t number, yes = OLD_VALUE;

    lend();
    number = bixtogan_configuration(square, sizeof square, out, 16, &value);
    expect(number == BIXTOGAN_DONE && wrote(configured, 8) && value == OLD_VALUE, "configuration");
    lend();
    number = bixtogan_configuration(square, sizeof square, out, 15, &value);
    expect(number == BIXTOGAN_SMALL_BUFFER && wrote_nothing(), "configuration into a small buffer");
    number = bixtogan_configuration(forked, sizeof forked, out, 10, &value);
    expect(number == BIXTOGAN_NO_READING && value == 4 && unwritten_past(8),
           "configuration where no reading is");
    expect(bixtogan_check_cycle(forked, sizeof forked, out, 8, &yes) == BIXTOGAN_DONE && yes == 1,
           "the cycle of a configuration");
}

static void drawings(void)
{
    static const char text[] = "0(1[6(7)],2[3(4[8(9)],5[10(11)])])";
    uint8_t number;

    lend();
    number = bixtogan_drawing(chain, sizeof chain, 1, out, 1024, &value);
    expect(number == BIXTOGAN_DONE && value == strlen(text)
               && wrote((const uint8_t *)text, strlen(text)),
           "drawing of reading 1");
    lend();
    number = bixtogan_drawing(chain, sizeof chain, 1, out, 1023, &value);
    expect(number == BIXTOGAN_SMALL_BUFFER && wrote_nothing(), "drawing into a small buffer");
    number = bixtogan_drawing(chain, sizeof chain, 0, out, 1024, &value);
    expect(number == BIXTOGAN_NO_SUCH_READING && wrote_nothing(), "drawing of number 0");
    number = bixtogan_drawing(chain, sizeof chain, 3, out, 1024, &value);
    expect(number == BIXTOGAN_NO_SUCH_READING && wrote_nothing(), "drawing past the last");
    number = bixtogan_drawing(chain, sizeof chain, UINT64_MAX, out, 1024, &value);
    expect(number == BIXTOGAN_NO_SUCH_READING && wrote_nothing(), "drawing of the largest number");
    number = bixtogan_drawing(loop, sizeof loop, 1, out, 1024, &value);
    expect(number == BIXTOGAN_NO_READING && wrote_nothing(), "drawing where no reading is");
}

static void tidied(void)
{
    uint8_t sheet[BIXTOGAN_SHEET_MAX];
    uint8_t number;
    size_t length;

    lend();
    number = bixtogan_tidy(chain_untidy, sizeof chain_untidy, out, sizeof chain_untidy, &value);
    expect(number == BIXTOGAN_DONE && value == sizeof chain && wrote(chain, sizeof chain),
           "tidying");
    lend();
    number = bixtogan_tidy(chain_untidy, sizeof chain_untidy, out, sizeof chain_untidy - 1, &value);
    expect(number == BIXTOGAN_SMALL_BUFFER && wrote_nothing(), "tidying into a small buffer");
    length = with_edges(255, sheet);
    number = bixtogan_tidy(sheet, length, out, length, &value);
    expect(number == BIXTOGAN_DONE && value == length && wrote(sheet, length),
           "tidying 255 dominance edges");
}

/* A dominance edge that is repeated is one edge. */
static void repeats(void)
{
    static const uint8_t reading[4] = {TOP, TOP, 1, TOP};
    static const int times[] = {1, 2, 679};
    uint8_t once[12], tidy[BIXTOGAN_TIDY_ROOM], sheet[BIXTOGAN_SHEET_MAX];
    uint64_t place;
    size_t i, length;

    with_repeats(1, once);
    for (i = 0; i < LENGTH(times); i++) {
        length = with_repeats(times[i], sheet);
        lend();
        expect(bixtogan_count(sheet, length, &value) == BIXTOGAN_DONE && value == 1,
               "the count with repeats");
        lend();
        place = 0;
        expect(bixtogan_reading(sheet, length, &place, out, 8, &value) == BIXTOGAN_DONE
                   && place == 1 && wrote(reading, 4),
               "the reading with repeats");
        lend();
        expect(bixtogan_tidy(sheet, length, out, 12, &value) == BIXTOGAN_DONE && value == 12
                   && wrote(once, 12),
               "tidying repeats");
        lend();
        expect(bixtogan_tidy(sheet, length, out, 11, &value) == BIXTOGAN_SMALL_BUFFER
                   && wrote_nothing(),
               "tidying repeats into a small buffer");
    }
    expect(length == 2046, "as many repeats as a sheet may have");
    length = with_edges(255, tidy);
    with_edges(255, sheet);
    i = put(sheet, length - 1, 3, 1, 0);
    sheet[i++] = 0;
    lend();
    expect(bixtogan_tidy(sheet, i, out, length, &value) == BIXTOGAN_DONE && value == length
               && wrote(tidy, length),
           "tidying 255 dominance edges and a repeat");
}

/* A sheet with one reading: its number of nodes, its drawing, reading and configuration. */
static void one_reading(const uint8_t *sheet, size_t length, size_t nodes, const char *text,
                        const uint8_t *placings)
{
    uint64_t place = 0;

    lend();
    expect(bixtogan_nodes(sheet, length, &value) == BIXTOGAN_DONE && value == nodes, text);
    lend();
    expect(bixtogan_count(sheet, length, &value) == BIXTOGAN_DONE && value == 1, text);
    lend();
    expect(bixtogan_reading(sheet, length, &place, out, 2 * nodes - 1, &value)
                   == BIXTOGAN_SMALL_BUFFER
               && place == 0 && wrote_nothing(),
           text);
    expect(bixtogan_reading(sheet, length, &place, out, 2 * nodes, &value) == BIXTOGAN_DONE
               && place == 1 && wrote(placings, nodes) && value == OLD_VALUE,
           text);
    lend();
    place = 0;
    expect(bixtogan_readings(sheet, length, &place, out, 2 * nodes - 1, &value)
                   == BIXTOGAN_SMALL_BUFFER
               && place == 0 && wrote_nothing(),
           text);
    expect(bixtogan_readings(sheet, length, &place, out, 2 * nodes, &value) == BIXTOGAN_DONE
               && place == 1 && wrote(placings, nodes),
           text);
    lend();
    expect(bixtogan_configuration(sheet, length, out, 2 * nodes - 1, &value)
                   == BIXTOGAN_SMALL_BUFFER
               && wrote_nothing(),
           text);
    expect(bixtogan_configuration(sheet, length, out, 2 * nodes, &value) == BIXTOGAN_DONE
               && wrote(placings + nodes, nodes),
           text);
    lend();
    expect(bixtogan_drawing(sheet, length, 1, out, 1024, &value) == BIXTOGAN_DONE
               && value == strlen(text) && wrote((const uint8_t *)text, strlen(text)),
           text);
    lend();
    expect(bixtogan_check_placing(sheet, length, placings, nodes - 1, &answer)
                   == BIXTOGAN_SMALL_BUFFER
               && wrote_nothing(),
           text);
    expect(bixtogan_check_placing(sheet, length, placings, nodes, &answer) == BIXTOGAN_DONE
               && (answer & BIXTOGAN_READING) != 0,
           text);
    expect(bixtogan_check_placing(sheet, length, placings + nodes, nodes, &answer) == BIXTOGAN_DONE
               && (answer & BIXTOGAN_CONFIGURATION) != 0,
           text);
    /* All these sheets are tidy: no added leaf is written. */
    lend();
    expect(bixtogan_tidy(sheet, length, out, length, &value) == BIXTOGAN_DONE && value == length
               && wrote(sheet, length),
           text);
}

/* A node without tree edges has a leaf added. */
static void one_word_fragments(void)
{
    static const uint8_t one[] = {1, 1, 0};
    static const uint8_t two[] = {1, 2, 0};
    static const uint8_t written[] = {1, 4, 2, 0, 2, 2, 1, 3, 0};
    static const uint8_t below[] = {1, 4, 2, 0, 1, 3, 1, 2, 3, 1, 3, 0};
    static const uint8_t flat[8] = {TOP, TOP, TOP, TOP, TOP, TOP, TOP, TOP};
    static const uint8_t placings[12] = {
        TOP, TOP, 1, 1, TOP, TOP,
        TOP, TOP, 1, 4, TOP, TOP,
    };
    static const uint8_t records[9] = {0, 1, 1, 2, 4, 1, 3, 5, 1};
    static const uint8_t fork[] = {1, 4, 2, 0, 1, 2, 0, 2, 3, 1, 3, 3, 2, 3, 0};
    static const uint8_t cycle[8] = {0, 2, 1, 3, 3, 3, 2, 2};
    static const uint8_t most[] = {1, 64, 0};
    uint64_t place = 0;

    lend();
    expect(bixtogan_count(most, sizeof most, &value) == BIXTOGAN_DONE && value == 1,
           "count of 64 nodes alone");
    one_reading(one, sizeof one, 2, "0(1)", flat);
    one_reading(two, sizeof two, 4, "0(2);1(3)", flat);
    one_reading(written, sizeof written, 4, "0(2);1(3)", flat);
    one_reading(below, sizeof below, 6, "0(1[2(4);3(5)])", placings);
    lend();
    expect(bixtogan_fragments(one, sizeof one, out, 3, &value) == BIXTOGAN_DONE && value == 1
               && wrote(records, 3),
           "fragment table of 1 node alone");
    lend();
    expect(bixtogan_fragments(below, sizeof below, out, 9, &value) == BIXTOGAN_DONE && value == 3
               && wrote(records, 9),
           "fragment table with added leaves");
    lend();
    expect(bixtogan_fragments(below, sizeof below, out, 8, &value) == BIXTOGAN_SMALL_BUFFER
               && wrote_nothing(),
           "fragment table with added leaves into a small buffer");
    /* Five nodes with the added leaf, so ten bytes, though four are written. */
    expect(bixtogan_reading(fork, sizeof fork, &place, out, 9, &value) == BIXTOGAN_SMALL_BUFFER
               && wrote_nothing(),
           "no reading of a node alone, in a small buffer");
    expect(bixtogan_reading(fork, sizeof fork, &place, out, 10, &value) == BIXTOGAN_NO_READING
               && place == 0 && value == 4 && unwritten_past(8),
           "no reading of a node alone");
    expect(bixtogan_check_cycle(fork, sizeof fork, out, 8, &answer) == BIXTOGAN_DONE && answer == 1,
           "the cycle of a reading of a node alone");
    lend();
    expect(bixtogan_check_cycle(fork, sizeof fork, cycle, 8, &answer) == BIXTOGAN_DONE
               && answer == 1,
           "check of a cycle through a node alone");
}

/* The chain of two without its last node, which is then added. */
static void chain_of_two_grown(void)
{
    static const char text[] = "0(1[6(7)],2[3(4[8(9)],5[10(11)])])";
    static const uint8_t both[24] = {
        TOP, TOP, TOP, 2, TOP, TOP, 1, TOP, 4, TOP, 5, TOP,
        4, TOP, TOP, TOP, TOP, TOP, 1, TOP, 2, TOP, 5, TOP,
    };
    static const uint8_t sheet[] = {
        1, 11,
        2, 0, 1,  2, 0, 2,  2, 3, 4,  2, 3, 5,  2, 6, 7,  2, 8, 9,
        3, 1, 6,  3, 2, 8,  3, 4, 8,  3, 5, 10,
        0,
    };
    uint64_t place = 0;

    lend();
    expect(bixtogan_readings(sheet, sizeof sheet, &place, out, 24, &value) == BIXTOGAN_DONE
               && place == 2 && wrote(both, 24),
           "readings of the chain of two, a leaf added");
    lend();
    expect(bixtogan_drawing(sheet, sizeof sheet, 1, out, 1024, &value) == BIXTOGAN_DONE
               && value == strlen(text) && wrote((const uint8_t *)text, strlen(text)),
           "drawing of the chain of two, a leaf added");
}

/* What is handed back of a labelled sheet, and 10 by its length. */
static void handed_back(const uint8_t *sheet, size_t length, const uint8_t *plain,
                        size_t plain_length, const char *what)
{
    lend();
    expect(bixtogan_labelled(sheet, length, out, plain_length - 1, &value) == BIXTOGAN_SMALL_BUFFER
               && wrote_nothing(),
           what);
    expect(bixtogan_labelled(sheet, length, out, plain_length, &value) == BIXTOGAN_DONE
               && value == plain_length && wrote(plain, plain_length),
           what);
    lend();
    expect(bixtogan_labelled(sheet, length, out, ROOM, &value) == BIXTOGAN_DONE
               && value == plain_length && wrote(plain, plain_length),
           what);
}

/* A labelled sheet is refused whatever is lent and wanted, and nothing is written. */
static void no_constraint(const uint8_t *sheet, size_t length, int number, const char *what)
{
    lend();
    expect(bixtogan_labelled(sheet, length, out, ROOM, &value) == number
               && bixtogan_labelled(sheet, length, out, 2, &value) == number
               && bixtogan_labelled(sheet, length, out, 0, &value) == number && wrote_nothing(),
           what);
    expect(bixtogan_term(sheet, length, 1, out, ROOM, &value) == number
               && bixtogan_term(sheet, length, 0, out, ROOM, &value) == number
               && bixtogan_term(sheet, length, 1, out, ROOM - 1, &value) == number
               && bixtogan_term(sheet, length, UINT64_MAX, out, 0, &value) == number
               && wrote_nothing(),
           what);
}

/* A symbol on a node with no child to four: it takes just so many. */
static void symbols(void)
{
    static const struct {
        int symbol, takes;
    } borders[] = {{0, 0}, {63, 0}, {64, 1}, {127, 1}, {128, 2}, {191, 2}, {192, 3}, {255, 3}};
    uint8_t sheet[32], plain[16];
    size_t i, at;
    int children, child;

    for (i = 0; i < LENGTH(borders); i++)
        for (children = 0; children <= 4; children++) {
            plain[0] = 1;
            plain[1] = (uint8_t)(children + 1);
            for (at = 2, child = 1; child <= children; child++)
                at = put(plain, at, 2, 0, child);
            plain[at] = 0;
            memcpy(sheet, plain, at);
            sheet[put(sheet, at, 5, 0, borders[i].symbol)] = 0;
            if (children == borders[i].takes)
                handed_back(sheet, at + 4, plain, at + 1, "as many children as a symbol takes");
            else
                no_constraint(sheet, at + 4, BIXTOGAN_LABEL, "more children or fewer");
        }
}

static void labelled(void)
{
    static const struct {
        const char *what;
        size_t length;
        uint8_t sheet[24];
        size_t plain_length;
        uint8_t plain[16];
    } cases[] = {
        {"a constant alone", 6, {1, 1, 5, 0, 7, 0}, 3, {1, 1, 0}},
        {"a constant alone, and 0x06", 7, {1, 1, 6, 5, 0, 7, 0}, 3, {1, 1, 0}},
        {"a symbol with a constant", 13, {1, 2, 5, 0, 64, 5, 1, 3, 2, 0, 1, 6, 0},
         6, {1, 2, 2, 0, 1, 0}},
        {"a symbol with a constant, 0x06 first and twice", 14,
         {1, 2, 6, 2, 0, 1, 5, 1, 3, 5, 0, 64, 6, 0}, 6, {1, 2, 2, 0, 1, 0}},
        {"a symbol with a hole", 9, {1, 2, 2, 0, 1, 5, 0, 64, 0}, 6, {1, 2, 2, 0, 1, 0}},
        {"a hole above a constant", 16, {1, 3, 3, 1, 2, 5, 0, 64, 5, 2, 3, 2, 0, 1, 6, 0},
         9, {1, 3, 2, 0, 1, 3, 1, 2, 0}},
        {"a hole above a constant twice", 19,
         {1, 3, 3, 1, 2, 5, 0, 64, 5, 2, 3, 3, 1, 2, 2, 0, 1, 6, 0},
         9, {1, 3, 2, 0, 1, 3, 1, 2, 0}},
    };
    static const uint8_t one[] = {1, 1, 0};
    static const uint8_t most[] = {1, 64, 0};
    uint8_t sheet[BIXTOGAN_SHEET_MAX], plain[BIXTOGAN_TIDY_ROOM];
    size_t i, length;

    for (i = 0; i < LENGTH(cases); i++)
        handed_back(cases[i].sheet, cases[i].length, cases[i].plain, cases[i].plain_length,
                    cases[i].what);
    handed_back(chain_labelled, sizeof chain_labelled, chain, sizeof chain,
                "the chain of two with labels");
    length = with_repeated_differing(BIXTOGAN_SHEET_MAX, sheet);
    handed_back(sheet, length, one, sizeof one, "2,048 bytes by repeats of 0x06");
    length = with_constants(64, sheet);
    handed_back(sheet, length, most, sizeof most, "64 constants alone");
    length = with_labelled_edges(255, sheet);
    handed_back(sheet, length, plain, with_edges(255, plain), "255 dominance edges and labels");
}

/* Labelled sheets that are no normal dominance constraints, and what is told before that. */
static void labelled_refusals(void)
{
    static const struct {
        const char *what;
        int number;
        size_t length;
        uint8_t sheet[24];
    } cases[] = {
        {"a symbol without its child", BIXTOGAN_LABEL, 6, {1, 1, 5, 0, 64, 0}},
        {"a label twice", BIXTOGAN_LABEL, 16,
         {1, 2, 5, 0, 64, 5, 1, 3, 2, 0, 1, 6, 5, 0, 64, 0}},
        {"two symbols for a node", BIXTOGAN_LABEL, 13, {1, 2, 5, 0, 64, 2, 0, 1, 5, 0, 65, 6, 0}},
        {"a constant twice", BIXTOGAN_LABEL, 9, {1, 1, 5, 0, 7, 5, 0, 7, 0}},
        {"a child of a constant", BIXTOGAN_LABEL, 9, {1, 2, 5, 0, 7, 2, 0, 1, 0}},
        {"a child of a node without a label", BIXTOGAN_LABEL, 6, {1, 2, 2, 0, 1, 0}},
        {"a child of a hole", BIXTOGAN_LABEL, 12, {1, 3, 5, 0, 64, 2, 0, 1, 2, 1, 2, 0}},
        {"a label twice, and no 0x06", BIXTOGAN_LABEL, 15,
         {1, 2, 5, 0, 64, 5, 1, 3, 2, 0, 1, 5, 0, 64, 0}},
        {"a label twice, and a node alone", BIXTOGAN_LABEL, 9, {1, 2, 5, 0, 7, 5, 0, 7, 0}},
        {"no 0x06", BIXTOGAN_OVERLAP, 12, {1, 2, 5, 0, 64, 5, 1, 3, 2, 0, 1, 0}},
        {"the same symbol for two nodes, and no 0x06", BIXTOGAN_OVERLAP, 9,
         {1, 2, 5, 0, 7, 5, 1, 7, 0}},
        {"no 0x06, and a node alone", BIXTOGAN_OVERLAP, 9, {1, 3, 5, 0, 7, 5, 1, 7, 0}},
        {"no 0x06, and an edge from a labelled leaf", BIXTOGAN_OVERLAP, 15,
         {1, 2, 5, 0, 64, 5, 1, 3, 2, 0, 1, 3, 1, 0, 0}},
        {"a node alone", BIXTOGAN_HOLE, 3, {1, 1, 0}},
        {"a node alone, and 0x06", BIXTOGAN_HOLE, 4, {1, 1, 6, 0}},
        {"a node alone beside a constant", BIXTOGAN_HOLE, 6, {1, 2, 5, 1, 7, 0}},
        {"64 nodes alone", BIXTOGAN_HOLE, 3, {1, 64, 0}},
        {"an edge from a labelled leaf", BIXTOGAN_HOLE, 16,
         {1, 2, 5, 0, 64, 5, 1, 3, 2, 0, 1, 6, 3, 1, 0, 0}},
        {"65 nodes alone", BIXTOGAN_OVERGROWN, 3, {1, 65, 0}},
        {"an edge from a constant alone", BIXTOGAN_ENDS, 13,
         {1, 2, 5, 0, 3, 5, 1, 4, 6, 3, 0, 1, 0}},
        {"an edge from a constant alone to itself, a label twice", BIXTOGAN_ENDS, 12,
         {1, 1, 5, 0, 3, 5, 0, 3, 3, 0, 0, 0}},
        {"tree edges in a cycle, a label twice", BIXTOGAN_TREE, 15,
         {1, 2, 5, 0, 64, 5, 0, 64, 2, 0, 1, 2, 1, 0, 0}},
        {"a label of no node", BIXTOGAN_RANGE, 6, {1, 1, 5, 1, 7, 0}},
        {"a label of no node, its symbol missing", BIXTOGAN_MISSING, 4, {1, 1, 5, 1}},
        {"a label without operands", BIXTOGAN_MISSING, 3, {1, 1, 5}},
        {"no end after a label", BIXTOGAN_MISSING, 5, {1, 1, 5, 0, 7}},
        {"no end after 0x06", BIXTOGAN_MISSING, 6, {1, 1, 5, 0, 7, 6}},
        {"the command 0x04", BIXTOGAN_COMMAND, 8, {1, 1, 5, 0, 7, 4, 0, 0}},
        {"the command 0x07", BIXTOGAN_COMMAND, 7, {1, 1, 5, 0, 7, 7, 0}},
        {"the command 0x11 in the first place", BIXTOGAN_COMMAND, 6, {17, 1, 5, 0, 7, 0}},
        {"the command 0x11 in another", BIXTOGAN_COMMAND, 8, {1, 1, 5, 0, 7, 17, 1, 0}},
        {"0x01 twice", BIXTOGAN_COMMAND, 8, {1, 1, 5, 0, 7, 1, 1, 0}},
        {"a label first", BIXTOGAN_COMMAND, 6, {5, 0, 7, 1, 1, 0}},
        {"0x06 first", BIXTOGAN_COMMAND, 7, {6, 1, 1, 5, 0, 7, 0}},
        {"a label after the end", BIXTOGAN_COMMAND, 9, {1, 1, 5, 0, 7, 0, 5, 0, 7}},
    };
    uint8_t sheet[BIXTOGAN_SHEET_MAX + 1];
    size_t i;

    for (i = 0; i < LENGTH(cases); i++)
        no_constraint(cases[i].sheet, cases[i].length, cases[i].number, cases[i].what);
    no_constraint(sheet, with_constants(65, sheet), BIXTOGAN_OVERGROWN, "65 constants alone");
    no_constraint(sheet, with_labelled_edges(256, sheet), BIXTOGAN_TOO_MANY,
                  "256 dominance edges and labels");
    no_constraint(sheet, with_repeated_differing(BIXTOGAN_SHEET_MAX + 1, sheet), BIXTOGAN_TOO_LONG,
                  "2,049 bytes by repeats of 0x06");
}

/* The term of a reading, which is lent no fewer bytes than it is to be. */
static void term(const uint8_t *sheet, size_t length, uint64_t number, const char *text)
{
    lend();
    expect(bixtogan_term(sheet, length, number, out, BIXTOGAN_TERM_ROOM, &value) == BIXTOGAN_DONE
               && value == strlen(text) && wrote((const uint8_t *)text, strlen(text)),
           text);
    lend();
    expect(bixtogan_term(sheet, length, number, out, BIXTOGAN_TERM_ROOM - 1, &value)
                   == BIXTOGAN_SMALL_BUFFER
               && wrote_nothing(),
           text);
}

/* No term, for one reason, and nothing is written. */
static void no_term(const uint8_t *sheet, size_t length, uint64_t number, int refusal,
                    const char *what)
{
    lend();
    expect(bixtogan_term(sheet, length, number, out, BIXTOGAN_TERM_ROOM, &value) == refusal
               && wrote_nothing(),
           what);
    expect(bixtogan_term(sheet, length, number, out, BIXTOGAN_TERM_ROOM - 1, &value)
                   == BIXTOGAN_SMALL_BUFFER
               && bixtogan_term(sheet, length, number, out, 0, &value) == BIXTOGAN_SMALL_BUFFER
               && wrote_nothing(),
           what);
}

/* As many nodes as there can be: 64 fragments in a line, and 64 constants alone. */
static void large_terms(void)
{
    static char line[1024], constants[1024];
    uint8_t sheet[BIXTOGAN_SHEET_MAX];
    int i;

    for (i = 1; i < 64; i++)
        strcat(line, "64(128(");
    strcat(line, "64(0)");
    for (i = 1; i < 64; i++)
        strcat(line, ",0))");
    term(sheet, with_labelled_line(64, sheet), 1, line);
    for (i = 0; i < 63; i++)
        sprintf(constants + strlen(constants), "128(%d,", i);
    strcat(constants, "63");
    for (i = 0; i < 63; i++)
        strcat(constants, ")");
    term(sheet, with_constants(64, sheet), 1, constants);
}

static void terms(void)
{
    static const struct {
        const char *text;
        size_t length;
        uint8_t sheet[48];
    } cases[] = {
        {"7", 6, {1, 1, 5, 0, 7, 0}},
        {"128(7,9)", 10, {1, 2, 5, 0, 7, 5, 1, 9, 6, 0}},
        {"128(9,128(8,7))", 13, {1, 3, 5, 0, 9, 5, 1, 8, 5, 2, 7, 6, 0}},
        {"64(0)", 9, {1, 2, 5, 0, 64, 2, 0, 1, 0}},
        {"64(128(5,0))", 16, {1, 3, 5, 0, 64, 2, 0, 1, 5, 2, 5, 3, 1, 2, 6, 0}},
        {"129(9,128(5,0))", 22,
         {1, 4, 5, 0, 129, 2, 0, 2, 2, 0, 1, 5, 2, 9, 5, 3, 5, 3, 1, 3, 6, 0}},
        {"129(128(5,0),9)", 22,
         {1, 4, 5, 0, 129, 2, 0, 1, 2, 0, 2, 5, 2, 9, 5, 3, 5, 3, 1, 3, 6, 0}},
        {"64(128(128(4,0),6))", 31,
         {1, 6, 5, 0, 64, 2, 0, 1, 5, 2, 128, 2, 2, 3, 2, 2, 4, 5, 3, 4, 5, 5, 6, 3, 1, 2,
          3, 1, 5, 6, 0}},
        {"64(128(5,128(6,128(7,8))))", 34,
         {1, 6, 5, 0, 64, 2, 0, 1, 5, 2, 5, 5, 3, 6, 5, 4, 7, 5, 5, 8, 3, 1, 5, 3, 1, 4, 3, 1, 3,
          3, 1, 2, 6, 0}},
        {"255(3,1,2)", 25,
         {1, 4, 5, 0, 255, 2, 0, 3, 2, 0, 1, 2, 0, 2, 5, 1, 1, 5, 2, 2, 5, 3, 3, 6, 0}},
    };
    static const uint8_t either[] = {
        1, 5,
        5, 0, 70,  2, 0, 1,  5, 2, 80,  2, 2, 3,  5, 4, 9,  3, 1, 4,  3, 3, 4,
        6,  0,
    };
    static const uint8_t loop_labelled[] = {1, 2, 5, 0, 64, 2, 0, 1, 3, 1, 0, 0};
    size_t i;

    for (i = 0; i < LENGTH(cases); i++) {
        term(cases[i].sheet, cases[i].length, 1, cases[i].text);
        no_term(cases[i].sheet, cases[i].length, 2, BIXTOGAN_NO_SUCH_READING, cases[i].text);
    }
    term(either, sizeof either, 1, "70(128(80(128(9,0)),0))");
    term(either, sizeof either, 2, "80(128(70(128(9,0)),0))");
    no_term(either, sizeof either, 0, BIXTOGAN_NO_SUCH_READING, "term of number 0");
    no_term(either, sizeof either, 3, BIXTOGAN_NO_SUCH_READING, "term past the last");
    no_term(either, sizeof either, BIXTOGAN_READINGS_MAX + 1, BIXTOGAN_NO_SUCH_READING,
            "term past the last number");
    no_term(either, sizeof either, UINT64_MAX, BIXTOGAN_NO_SUCH_READING,
            "term of the largest number");
    /* As a number of 32 bits it would be 1. */
    no_term(either, sizeof either, UINT64_C(0x100000001), BIXTOGAN_NO_SUCH_READING,
            "term of a large number");
    no_term(loop_labelled, sizeof loop_labelled, 1, BIXTOGAN_NO_READING,
            "term where no reading is");
    no_term(loop_labelled, sizeof loop_labelled, 0, BIXTOGAN_NO_READING,
            "term of number 0 where no reading is");
    /* The chain of two, of which 7, 9 and 11 are constants: the holes are 1, 2, 4 and 5. */
    term(chain_labelled, sizeof chain_labelled, 1,
         "128(128(191(128(100(1),0),128(127(63),0)),0),128(64(0),0))");
    term(chain_labelled, sizeof chain_labelled, 2,
         "191(128(100(1),0),128(128(128(127(63),0),128(64(0),0)),0))");
    large_terms();
}

static void tables(void)
{
    static const uint8_t records[15] = {0, 1, 2, 3, 4, 2, 6, 7, 1, 8, 9, 1, 10, 11, 1};
    uint8_t number;

    lend();
    number = bixtogan_fragments(chain, sizeof chain, out, 15, &value);
    expect(number == BIXTOGAN_DONE && value == 5 && wrote(records, 15), "fragment table");
    lend();
    number = bixtogan_fragments(chain, sizeof chain, out, 14, &value);
    expect(number == BIXTOGAN_SMALL_BUFFER && wrote_nothing(),
           "fragment table into a small buffer");
}

static void check_cycle(const uint8_t *cycle, size_t length, int yes, const char *what)
{
    lend();
    expect(bixtogan_check_cycle(forked, sizeof forked, cycle, length, &answer) == BIXTOGAN_DONE
               && answer == yes,
           what);
}

static void cycles(void)
{
    static const uint8_t cycle[8] = {0, 2, 1, 3, 3, 3, 2, 2};
    static const uint8_t wrong_kind[8] = {0, 2, 1, 2, 3, 3, 2, 2};

    check_cycle(cycle, 8, 1, "check of a cycle");
    check_cycle(wrong_kind, 8, 0, "check of a cycle with a wrong kind");
    check_cycle(cycle, 7, 0, "check of a cycle cut short");
    check_cycle(cycle, 0, 0, "check of no bytes as a cycle");
}

static void check_placing(const uint8_t *placing, int answers, const char *what)
{
    lend();
    expect(bixtogan_check_placing(square, sizeof square, placing, 8, &answer) == BIXTOGAN_DONE
               && answer == answers,
           what);
}

static void placings(void)
{
    static const uint8_t reading[8] = {TOP, TOP, 1, TOP, 3, TOP, 3, TOP};
    static const uint8_t configured[8] = {TOP, TOP, 1, TOP, 3, TOP, 5, TOP};
    static const uint8_t flat[8] = {TOP, TOP, TOP, TOP, TOP, TOP, TOP, TOP};
    static const uint8_t first[12] = {TOP, TOP, TOP, 2, TOP, TOP, 1, TOP, 4, TOP, 5, TOP};

    check_placing(reading, BIXTOGAN_SOLVED_FORM + BIXTOGAN_READING, "check of a reading");
    check_placing(configured, BIXTOGAN_SOLVED_FORM + BIXTOGAN_CONFIGURATION,
                  "check of a configuration");
    check_placing(flat, 0, "check of a placing that is no solved form");
    lend();
    expect(bixtogan_check_placing(chain, sizeof chain, first, 12, &answer) == BIXTOGAN_DONE
               && answer == BIXTOGAN_SOLVED_FORM + BIXTOGAN_CONFIGURATION + BIXTOGAN_READING,
           "check of a reading that is a configuration");
    lend();
    expect(bixtogan_check_placing(chain, sizeof chain, first, 11, &answer) == BIXTOGAN_SMALL_BUFFER
               && wrote_nothing(),
           "check of a placing in a small buffer");
}

/* The functions for plain sheets refuse one with its number, and write nothing. */
static void refused_as_plain(const uint8_t *sheet, size_t length, int number, const char *what)
{
    static const uint8_t lent[BIXTOGAN_NODES_MAX];
    uint64_t place = 5;

    lend();
    expect(bixtogan_nodes(sheet, length, &value) == number
               && bixtogan_count(sheet, length, &value) == number
               && bixtogan_reading(sheet, length, &place, out, ROOM, &value) == number
               && bixtogan_readings(sheet, length, &place, out, ROOM, &value) == number
               && bixtogan_configuration(sheet, length, out, ROOM, &value) == number
               && bixtogan_drawing(sheet, length, 1, out, ROOM, &value) == number
               && bixtogan_tidy(sheet, length, out, ROOM, &value) == number
               && bixtogan_fragments(sheet, length, out, ROOM, &value) == number
               && bixtogan_check_cycle(sheet, length, lent, sizeof lent, &answer) == number
               && bixtogan_check_placing(sheet, length, lent, sizeof lent, &answer) == number
               && place == 5 && wrote_nothing(),
           what);
}

/* All functions refuse a sheet that is not well-formed, with or without labels. */
static void refused_by_all(const uint8_t *sheet, size_t length, int number, const char *what)
{
    refused_as_plain(sheet, length, number, what);
    no_constraint(sheet, length, number, what);
}

/* Plain sheets have no labels: the commands are unknown, with their operands or without. */
static void labels_in_plain_sheets(void)
{
    static const struct {
        const char *what;
        size_t length;
        uint8_t sheet[16];
    } cases[] = {
        {"a label in a plain sheet", 6, {1, 1, 5, 0, 7, 0}},
        {"a label in a plain sheet, its symbol missing", 4, {1, 1, 5, 0}},
        {"a label in a plain sheet, its operands missing", 3, {1, 1, 5}},
        {"a label of no node in a plain sheet", 6, {1, 1, 5, 1, 7, 0}},
        {"0x06 in a plain sheet", 4, {1, 1, 6, 0}},
        {"0x06 in a plain sheet, and no end", 3, {1, 1, 6}},
        {"a label before a tree edge from a node to itself", 9, {1, 2, 5, 0, 7, 2, 0, 0, 0}},
    };
    size_t i;

    for (i = 0; i < LENGTH(cases); i++)
        refused_as_plain(cases[i].sheet, cases[i].length, BIXTOGAN_COMMAND, cases[i].what);
    refused_as_plain(chain_labelled, sizeof chain_labelled, BIXTOGAN_COMMAND,
                     "the chain of two with labels as a plain sheet");
}

static void refusals(void)
{
    static const struct {
        const char *what;
        int number;
        size_t length;
        uint8_t sheet[16];
    } cases[] = {
        {"no bytes", BIXTOGAN_MISSING, 0, {0}},
        {"no end", BIXTOGAN_MISSING, 2, {1, 128}},
        {"an unknown command", BIXTOGAN_COMMAND, 1, {5}},
        {"a byte after the end", BIXTOGAN_COMMAND, 7, {1, 2, 2, 0, 1, 0, 0}},
        {"1 node and no end", BIXTOGAN_MISSING, 2, {1, 1}},
        {"no nodes", BIXTOGAN_RANGE, 3, {1, 0, 0}},
        {"no nodes and no end", BIXTOGAN_RANGE, 2, {1, 0}},
        {"129 nodes", BIXTOGAN_RANGE, 2, {1, 129}},
        {"a tree edge from a node to itself", BIXTOGAN_TREE, 6, {1, 2, 2, 0, 0, 0}},
        {"tree edges in a cycle", BIXTOGAN_TREE, 9, {1, 2, 2, 0, 1, 2, 1, 0, 0}},
        {"tree edges in a cycle and 65 nodes alone", BIXTOGAN_TREE, 9,
         {1, 67, 2, 0, 1, 2, 1, 0, 0}},
        {"65 nodes alone", BIXTOGAN_OVERGROWN, 3, {1, 65, 0}},
        {"3 nodes in a fragment and 63 alone", BIXTOGAN_OVERGROWN, 9,
         {1, 66, 2, 0, 1, 2, 0, 2, 0}},
        {"65 nodes alone, a dominance edge from one", BIXTOGAN_OVERGROWN, 6, {1, 65, 3, 0, 0, 0}},
        {"64 nodes alone, a dominance edge from one", BIXTOGAN_ENDS, 6, {1, 64, 3, 0, 0, 0}},
        {"a dominance edge from a node alone", BIXTOGAN_ENDS, 9, {1, 3, 2, 0, 1, 3, 2, 0, 0}},
        {"a dominance edge from an added leaf", BIXTOGAN_RANGE, 9, {1, 3, 2, 0, 1, 3, 3, 0, 0}},
        {"a dominance edge from a root", BIXTOGAN_ENDS, 9, {1, 2, 2, 0, 1, 3, 0, 0, 0}},
        {"a tree edge twice", BIXTOGAN_TREE, 12, {1, 4, 2, 0, 1, 2, 0, 1, 2, 2, 3, 0}},
        {"a dominance edge from a root twice", BIXTOGAN_ENDS, 15,
         {1, 4, 2, 0, 1, 2, 2, 3, 3, 0, 2, 3, 0, 2, 0}},
    };
    static const uint8_t zeros[BIXTOGAN_SHEET_MAX + 1];
    uint8_t sheet[BIXTOGAN_SHEET_MAX + 1];
    size_t i;

    for (i = 0; i < LENGTH(cases); i++)
        refused_by_all(cases[i].sheet, cases[i].length, cases[i].number, cases[i].what);
    refused_by_all(sheet, with_edges(256, sheet), BIXTOGAN_TOO_MANY, "256 dominance edges");
    i = put(sheet, with_edges(255, sheet) - 1, 3, 1, 0);
    i = put(sheet, i, 3, 31, 30);
    sheet[i++] = 0;
    refused_by_all(sheet, i, BIXTOGAN_TOO_MANY, "the 256th dominance edge after a repeat");
    refused_by_all(zeros, BIXTOGAN_SHEET_MAX, BIXTOGAN_COMMAND, "2,048 zeros");
    refused_by_all(zeros, BIXTOGAN_SHEET_MAX + 1, BIXTOGAN_TOO_LONG, "2,049 zeros");
    refused_by_all(sheet, with_repeats(680, sheet), BIXTOGAN_TOO_LONG, "2,049 bytes of repeats");
}

int main(void)
{
    node_numbers();
    counts();
    readings();
    stretches();
    configurations();
    drawings();
    tidied();
    repeats();
    one_word_fragments();
    chain_of_two_grown();
    labelled();
    symbols();
    labelled_refusals();
    terms();
    tables();
    cycles();
    placings();
    labels_in_plain_sheets();
    refusals();
    printf("%d\n", passed);
    return failed != 0;
}
