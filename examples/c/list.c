/*
 * Lists the readings of the chain of two, as the program `readings` prints them.
 *
 *     tools/build library
 *     cc -Iinclude examples/c/list.c target/staticlib/libcapi.a -o list && ./list
 */
#include "bixtogan.h"

#include <inttypes.h>
#include <stdio.h>

static const uint8_t sheet[] = {
    1, 12,
    2, 0, 1,  2, 0, 2,  2, 3, 4,  2, 3, 5,  2, 6, 7,  2, 8, 9,  2, 10, 11,
    3, 1, 6,  3, 2, 8,  3, 4, 8,  3, 5, 10,
    0,
};

static int refused(uint8_t number)
{
    printf("refused %d\n", number);
    return 1;
}

static void print_count(uint64_t readings)
{
    if (readings == BIXTOGAN_MORE)
        printf("readings more than %d\n", BIXTOGAN_READINGS_MAX);
    else
        printf("readings %" PRIu64 "\n", readings);
}

/* The reading's number, and root:leaf of each root that hangs under a leaf. */
static void print_reading(uint64_t number, const uint8_t *placing, uint64_t nodes)
{
    uint64_t node;

    printf("%" PRIu64, number);
    for (node = 0; node < nodes; node++)
        if (placing[node] != BIXTOGAN_TOP)
            printf(" %" PRIu64 ":%d", node, placing[node]);
    printf("\n");
}

int main(void)
{
    uint8_t out[BIXTOGAN_PLACING_ROOM];
    uint64_t nodes, readings, pairs;
    uint64_t place = 0;
    uint8_t number;

    /* So many bytes of out are a placing. */
    number = bixtogan_nodes(sheet, sizeof sheet, &nodes);
    if (number != BIXTOGAN_DONE)
        return refused(number);
    number = bixtogan_count(sheet, sizeof sheet, &readings);
    if (number != BIXTOGAN_DONE)
        return refused(number);
    print_count(readings);

    /* Each call moves the place on, until there is no further reading. */
    for (;;) {
        number = bixtogan_reading(sheet, sizeof sheet, &place, out, sizeof out, &pairs);
        if (number != BIXTOGAN_DONE)
            break;
        print_reading(place, out, nodes);
    }
    return number == BIXTOGAN_NO_SUCH_READING ? 0 : refused(number);
}
