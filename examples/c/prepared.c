/* Keeps a prepared state beside a type table: prepares it once, checks messages with it, adds the type of another pad, and
 * goes back.
 *
 *   mkdir -p target && (cd crates/ratlinery && rt lib)
 *   cc -Iinclude examples/c/prepared.c crates/ratlinery/out/libratlinery.a -o target/prepared && target/prepared
 */
#include "ratlinery.h"

#include <inttypes.h>
#include <stdio.h>

/* Two pads: a struct of a button, 1, 2 or 4, and of a vector of bytes; then a struct of two buttons. */
static const uint32_t rows[] = {
    11, 1, 0, 3,   /* row 0: strict enum of 1 byte, 3 entries from entry 0 on */
    2,  1, 0, 0,   /* row 1: number of 1 byte */
    5,  1, 100, 0, /* row 2: vector of row 1, at most 100 */
    7,  0, 2, 0,   /* row 3: struct of 2 members from member 0 on */
    7,  2, 2, 0,   /* row 4: struct of 2 members from member 2 on */
};
static const uint32_t members[] = {
    1, 0, 2, 2, /* of row 3 */
    1, 0, 2, 0, /* of row 4 */
};
static const uint64_t entries[] = {1, 2, 4};

/* The first pad alone, and both. */
static const struct ratlinery_types one = {rows, 4 * 4, members, 2 * 2, entries, 3};
static const struct ratlinery_types both = {rows, 5 * 4, members, 4 * 2, entries, 3};

static const uint8_t first[] = {4, 0, 0,    0,    0,    0,    0,    0,    /* button 4, and fill */
                                1, 0, 0,    0,    0,    0,    0,    0,    /* one byte */
                                0xff, 0xff, 0xff, 0xff, 0xff, 0xff, 0xff, 0xff, /* follows: */
                                7, 0, 0,    0,    0,    0,    0,    0};
static const uint8_t second[] = {1, 2, 0, 0, 0, 0, 0, 0};

/* All zero: the start state. */
static uint32_t state[RATLINERY_STATE];

static void tell(const char *what, uint32_t number, uint64_t place) {
    if (number == RATLINERY_ACCEPTED)
        printf("%s: accepted, %" PRIu32 " rows in use\n", what, state[0]);
    else
        printf("%s: refused with %" PRIu32 " at %" PRIu64 "\n", what, number, place);
}

static void check(const char *what, const struct ratlinery_types *types, uint32_t root, const uint8_t *message,
                  size_t length) {
    uint64_t place;
    uint32_t number = ratlinery_types_check_prepared(types, state, RATLINERY_STATE, root, message, length, 0, &place, 1);
    tell(what, number, place);
}

int main(void) {
    uint64_t place;
    uint32_t number;

    number = ratlinery_types_prepare(&one, state, RATLINERY_STATE, &place, 1);
    tell("prepare one pad", number, place);
    check("first pad", &one, 3, first, sizeof first);

    /* The state is not yet that of the longer lists. */
    check("second pad, too early", &both, 4, second, sizeof second);

    number = ratlinery_types_append(&both, state, RATLINERY_STATE, &place, 1);
    tell("append the other", number, place);
    check("second pad", &both, 4, second, sizeof second);

    /* Without the last row; the entries stay. */
    number = ratlinery_types_go_back(&both, 4, 2, 3, state, RATLINERY_STATE, &place, 1);
    tell("go back", number, place);
    check("second pad, gone", &one, 4, second, sizeof second);

    /* Row 0 needs its entries. */
    number = ratlinery_types_go_back(&one, 4, 2, 0, state, RATLINERY_STATE, &place, 1);
    tell("go back without entries", number, place);
    return 0;
}
