/* Reads a message, writes it back, and shows what a refusal looks like.
 *
 *   mkdir -p target && (cd crates/ratlinery && rt lib)
 *   cc -Iinclude examples/c/read_write.c crates/ratlinery/out/libratlinery.a -o target/read_write && target/read_write
 */
#include "ratlinery.h"

#include <inttypes.h>
#include <stdio.h>
#include <string.h>

#define LENGTH(list) (sizeof(list) / sizeof((list)[0]))

/* A table of three members: a number of one byte, a struct of two numbers of two bytes, an optional string. */
static const uint32_t rows[] = {
    2, 1, 0, 0, /* row 0: number of 1 byte */
    2, 2, 0, 0, /* row 1: number of 2 bytes */
    6, 0, 8, 1, /* row 2: optional string of at most 8 bytes */
    7, 0, 2, 0, /* row 3: struct of 2 members from member 0 on */
    9, 2, 3, 0, /* row 4: table of 3 members from member 2 on */
};
static const uint32_t members[] = {
    1, 1, 2, 1,       /* of the struct: ordinals 1 and 2, both row 1 */
    1, 0, 2, 3, 3, 2, /* of the table: ordinal 1 is row 0, 2 is row 3, 3 is row 2 */
};
static const struct ratlinery_types types = {rows, LENGTH(rows), members, LENGTH(members), NULL, 0};
static const uint32_t root = 4;

int main(void) {
    uint8_t message[32] = {
        0x02, 0, 0,    0,    0,    0,    0,    0,    /* highest ordinal that is present */
        0xff, 0xff, 0xff, 0xff, 0xff, 0xff, 0xff, 0xff, /* its envelopes follow */
        0x02, 0, 0,    0,    0,    0,    0x01, 0,    /* ordinal 1, in line: 2 */
        0x64, 0, 0xfd, 0xff, 0,    0,    0x01, 0,    /* ordinal 2, in line: 100 and 65533 */
    };
    uint64_t values[64], answer[3];
    uint32_t objects[64];

    uint32_t number = ratlinery_types_read(&types, root, message, sizeof message, 0, values, LENGTH(values), objects,
                                           LENGTH(objects), answer, LENGTH(answer));
    if (number != RATLINERY_ACCEPTED) {
        printf("refused with %" PRIu32 " at %" PRIu64 "\n", number, answer[0]);
        return 1;
    }
    uint64_t value_count = answer[1], object_count = answer[2];
    for (uint64_t i = 0; i < value_count; i++)
        printf("value %" PRIu64 "\n", values[i]);
    for (uint64_t i = 0; i < object_count; i += 4)
        printf("object of kind %" PRIu32 ", row %" PRIu32 ": %" PRIu32 " bytes at %" PRIu32 "\n", objects[i],
               objects[i + 1], objects[i + 3], objects[i + 2]);

    /* What was read is written as it was. */
    uint8_t written[64];
    number = ratlinery_types_write(&types, root, values, (size_t)value_count, written, sizeof written, answer,
                                   LENGTH(answer));
    if (number != RATLINERY_ACCEPTED || answer[1] != sizeof message || memcmp(written, message, sizeof message) != 0)
        return 1;
    printf("written back, %" PRIu64 " bytes and %" PRIu64 " handles\n", answer[1], answer[2]);

    /* A byte of fill that is not zero is refused: 7, at that byte. */
    message[17] = 1;
    number = ratlinery_types_check(&types, root, message, sizeof message, 0, answer, 1);
    printf("damaged: refused with %" PRIu32 " at byte %" PRIu64 "\n", number, answer[0]);
    return number == RATLINERY_FILL_NOT_ZERO && answer[0] == 17 ? 0 : 1;
}
