/*
 * Every function called on a thread that has no more stack than the header promises, 256
 * kilobytes: on the sheets in the files given and on the largest there are, for answers and for
 * refusals. Below the stack lies memory that nobody may touch, so a call that needs more ends the
 * program; what the thread and this program take of the stack counts as well. Prints how many
 * calls were made and how many kilobytes of the stack were used.
 */
#define _DEFAULT_SOURCE
#include "bixtogan.h"

#include <pthread.h>
#include <stdio.h>
#include <stdlib.h>
#include <string.h>
#include <sys/mman.h>

#define STACK (256 * 1024)
#define BELOW (1024 * 1024)
#define UNTOUCHED 0xa5

#define SHEETS 32
#define ROOM (512 * BIXTOGAN_NODES_MAX)

static struct sheet {
    uint8_t bytes[BIXTOGAN_SHEET_MAX];
    size_t length;
} sheets[SHEETS];
static struct sheet *last = sheets;

static int calls;

static void expect(int holds, const char *what)
{
    if (!holds) {
        fprintf(stderr, "failed: %s on a thread with 256 kilobytes of stack\n", what);
        exit(1);
    }
    calls++;
}

/* Sheets. */

static void put(int command, int a, int b)
{
    uint8_t *at = last->bytes + last->length;

    at[0] = (uint8_t)command;
    at[1] = (uint8_t)a;
    at[2] = (uint8_t)b;
    last->length += 3;
}

static void begin_nodes(int nodes)
{
    last->bytes[0] = 1;
    last->bytes[1] = (uint8_t)nodes;
    last->length = 2;
}

/* 64 fragments of two nodes: root 2i, leaf 2i + 1. */
static void begin(void)
{
    int i;

    begin_nodes(BIXTOGAN_NODES_MAX);
    for (i = 0; i < 64; i++)
        put(2, 2 * i, 2 * i + 1);
}

static void end(void)
{
    last->bytes[last->length++] = 0;
    last++;
}

static void differ(void)
{
    last->bytes[last->length++] = 6;
}

/* A label for the root of each of the 64 fragments; their leaves are holes. */
static void label(void)
{
    int i;

    for (i = 0; i < 64; i++)
        put(5, 2 * i, 64);
    differ();
}

/* Each fragment above the next, 64 deep, so there is one reading. */
static void begin_line(int edges)
{
    int step, i;

    begin();
    for (step = 1; edges > 0; step++)
        for (i = 0; i + step < 64 && edges > 0; i++, edges--)
            put(3, 2 * i + 1, 2 * (i + step));
}

static void line(int edges)
{
    begin_line(edges);
    end();
}

/* The same with labels, as long as a sheet may be. */
static void labelled_line(int edges)
{
    begin_line(edges);
    label();
    while (last->length < BIXTOGAN_SHEET_MAX - 1)
        differ();
    end();
}

/* The same with the last above the first, so there is none. */
static void begin_ring(int edges)
{
    int i;

    begin();
    for (i = 0; i < edges; i++)
        put(3, 2 * (i % 64) + 1, 2 * ((i % 64 + i / 64 + 1) % 64));
}

static void ring(int edges)
{
    begin_ring(edges);
    end();
}

/* The same with labels. */
static void labelled_ring(int edges)
{
    begin_ring(edges);
    label();
    end();
}

/* One fragment of 128 nodes, each above the next. */
static void tower(void)
{
    int i;

    begin_nodes(BIXTOGAN_NODES_MAX);
    for (i = 0; i < BIXTOGAN_NODES_MAX - 1; i++) {
        put(2, i, i + 1);
        put(5, i, 127);
    }
    differ();
    end();
}

/* 32 fragments, each above several of the 32 others: more readings than are counted. */
static void square(int edges)
{
    int i;

    begin();
    for (i = 0; i < edges; i++)
        put(3, 2 * (i % 32) + 1, 64 + 2 * ((i % 32 + i / 32) % 32));
    end();
}

/* 64 nodes alone, each with a leaf added. */
static void words(void)
{
    begin_nodes(BIXTOGAN_NODES_MAX / 2);
    end();
}

/* The same with labels. */
static void labelled_words(void)
{
    int i;

    begin_nodes(BIXTOGAN_NODES_MAX / 2);
    for (i = 0; i < BIXTOGAN_NODES_MAX / 2; i++)
        put(5, i, 63);
    differ();
    end();
}

static void read_sheet(const char *name)
{
    FILE *file = fopen(name, "rb");

    if (file == NULL) {
        perror(name);
        exit(1);
    }
    last->length = fread(last->bytes, 1, sizeof last->bytes, file);
    fclose(file);
    last++;
}

/* The calls. Nothing large lies on the stack here. */

static uint8_t out[ROOM];
static uint64_t value, nodes;
static uint8_t answer;

/* What a call that gives a placing wrote: the cycle that a 9 brings, or the kind of placing. */
static void confirm(const uint8_t *sheet, size_t length, int number, int kind, const char *what)
{
    if (number == BIXTOGAN_NO_READING)
        expect(bixtogan_check_cycle(sheet, length, out, 2 * value, &answer) == BIXTOGAN_DONE
                   && answer == 1,
               what);
    else
        expect(bixtogan_check_placing(sheet, length, out, nodes, &answer) == BIXTOGAN_DONE
                   && (answer & kind) != 0,
               what);
}

static void answers(const uint8_t *sheet, size_t length)
{
    int number = bixtogan_count(sheet, length, &value);
    uint64_t place = 0;

    expect(number == BIXTOGAN_DONE || number == BIXTOGAN_NO_READING, "count");
    expect(bixtogan_nodes(sheet, length, &nodes) == BIXTOGAN_DONE, "nodes");
    expect(bixtogan_reading(sheet, length, &place, out, ROOM, &value) == number, "reading");
    confirm(sheet, length, number, BIXTOGAN_READING, "check of a reading or its cycle");
    place = 0;
    expect(bixtogan_readings(sheet, length, &place, out, ROOM, &value) == number, "readings");
    confirm(sheet, length, number, BIXTOGAN_READING, "check of the first reading or its cycle");
    expect(bixtogan_configuration(sheet, length, out, ROOM, &value) == number, "configuration");
    confirm(sheet, length, number, BIXTOGAN_CONFIGURATION, "check of a configuration or its cycle");
    expect(bixtogan_drawing(sheet, length, 1, out, ROOM, &value) == number, "drawing");
    expect(bixtogan_tidy(sheet, length, out, ROOM, &value) == BIXTOGAN_DONE, "tidy sheet");
    expect(bixtogan_fragments(sheet, length, out, ROOM, &value) == BIXTOGAN_DONE, "fragment table");
    if (number == BIXTOGAN_DONE)
        number = BIXTOGAN_NO_SUCH_READING;
    place = UINT64_MAX;
    expect(bixtogan_reading(sheet, length, &place, out, ROOM, &value) == number, "a late reading");
    expect(bixtogan_drawing(sheet, length, 0, out, ROOM, &value) == number, "drawing 0");
}

/* The functions that are lent a buffer, for one that is too small and for a sheet cut short. */
static void refusals(const uint8_t *sheet, size_t length, size_t room, int number, const char *what)
{
    uint64_t place = 0;

    expect(bixtogan_reading(sheet, length, &place, out, room, &value) == number, what);
    expect(bixtogan_readings(sheet, length, &place, out, room, &value) == number, what);
    expect(bixtogan_configuration(sheet, length, out, room, &value) == number, what);
    expect(bixtogan_drawing(sheet, length, 1, out, room, &value) == number, what);
    expect(bixtogan_tidy(sheet, length, out, room, &value) == number, what);
    expect(bixtogan_fragments(sheet, length, out, room, &value) == number, what);
    expect(bixtogan_check_placing(sheet, length, out, room, &answer) == number, what);
}

static void plain(const uint8_t *sheet, size_t length)
{
    size_t cut = length - 1;
    int number = bixtogan_labelled(sheet, length, out, ROOM, &value);

    expect(number == BIXTOGAN_LABEL || number == BIXTOGAN_HOLE, "a plain sheet as a labelled one");
    expect(bixtogan_term(sheet, length, 1, out, ROOM, &value) == number, "term of a plain sheet");
    answers(sheet, length);
    refusals(sheet, length, 1, BIXTOGAN_SMALL_BUFFER, "a small buffer");
    refusals(sheet, cut, ROOM, BIXTOGAN_MISSING, "a sheet cut short");
    expect(bixtogan_count(sheet, cut, &value) == BIXTOGAN_MISSING, "count of a sheet cut short");
    expect(bixtogan_nodes(sheet, cut, &value) == BIXTOGAN_MISSING, "nodes of a sheet cut short");
    expect(bixtogan_check_cycle(sheet, cut, out, 4, &answer) == BIXTOGAN_MISSING,
           "check of a cycle of a sheet cut short");
}

/* The terms of a labelled sheet, which has a reading or is refused with this number. */
static void terms(const uint8_t *sheet, size_t length, int number)
{
    expect(bixtogan_term(sheet, length, 1, out, ROOM, &value) == number, "term");
    expect(bixtogan_term(sheet, length, 1, out, BIXTOGAN_TERM_ROOM, &value) == number,
           "term in a buffer that is just enough");
    expect(bixtogan_term(sheet, length, 1, out, BIXTOGAN_TERM_ROOM - 1, &value)
               == BIXTOGAN_SMALL_BUFFER,
           "term in a small buffer");
    expect(bixtogan_term(sheet, length - 1, 1, out, ROOM, &value) == BIXTOGAN_MISSING,
           "term of a sheet cut short");
    if (number == BIXTOGAN_DONE)
        number = BIXTOGAN_NO_SUCH_READING;
    expect(bixtogan_term(sheet, length, UINT64_MAX, out, ROOM, &value) == number, "a late term");
    expect(bixtogan_term(sheet, length, 0, out, ROOM, &value) == number, "term 0");
}

/* A labelled sheet, and then the plain one that is handed back. */
static void labelled(const uint8_t *sheet, size_t length)
{
    static uint8_t handed_back[BIXTOGAN_TIDY_ROOM];
    uint64_t plain_length;

    refusals(sheet, length, ROOM, BIXTOGAN_COMMAND, "a labelled sheet as a plain one");
    expect(bixtogan_labelled(sheet, length - 1, out, ROOM, &value) == BIXTOGAN_MISSING,
           "a labelled sheet cut short");
    expect(bixtogan_labelled(sheet, length, out, 1, &value) == BIXTOGAN_SMALL_BUFFER,
           "a labelled sheet and a small buffer");
    expect(bixtogan_labelled(sheet, length, handed_back, sizeof handed_back, &plain_length)
               == BIXTOGAN_DONE,
           "a labelled sheet");
    terms(sheet, length, bixtogan_count(handed_back, plain_length, &value));
    plain(handed_back, plain_length);
}

static void *run(void *unused)
{
    const struct sheet *sheet;

    for (sheet = sheets; sheet < last; sheet++)
        if (bixtogan_nodes(sheet->bytes, sheet->length, &nodes) == BIXTOGAN_COMMAND)
            labelled(sheet->bytes, sheet->length);
        else
            plain(sheet->bytes, sheet->length);
    return unused;
}

int main(int argc, char **argv)
{
    pthread_attr_t attributes;
    pthread_t thread;
    uint8_t *memory, *stack;
    int i, unused = 0;

    for (i = 1; i < argc && i < SHEETS - 9; i++)
        read_sheet(argv[i]);
    line(255);
    labelled_line(255);
    ring(64);
    ring(255);
    labelled_ring(64);
    tower();
    square(255);
    words();
    labelled_words();

    memory = mmap(NULL, BELOW + STACK, PROT_READ | PROT_WRITE, MAP_PRIVATE | MAP_ANONYMOUS, -1, 0);
    if (memory == MAP_FAILED || mprotect(memory, BELOW, PROT_NONE) != 0)
        return 2;
    stack = memory + BELOW;
    memset(stack, UNTOUCHED, STACK);
    if (pthread_attr_init(&attributes) != 0 || pthread_attr_setstack(&attributes, stack, STACK) != 0
        || pthread_create(&thread, &attributes, run, NULL) != 0 || pthread_join(thread, NULL) != 0)
        return 2;
    while (unused < STACK && stack[unused] == UNTOUCHED)
        unused++;
    printf("%d %d\n", calls, (STACK - unused + 1023) / 1024);
    return 0;
}
