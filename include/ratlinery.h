/* Ratlinery: a codec for FIDL messages with 8-byte envelopes, under a type table that is handed in at run time.
 *
 * Every function is total: it returns for any numbers, lists and bytes, valid or not, and it allocates nothing. Each
 * returns a number, 0 for accepted or that of a refusal, and stores what it answers into `answer`:
 *
 *   answer[0]     the place of the refusal, or 0
 *   answer[1..]   the function's results, as listed there; all 0 on a refusal
 *
 * Words of `answer` that it has no room for are not stored (an `answer` of length 0 is allowed), and no word past the
 * results is touched.
 *
 * Type table. Three lists: `rows`, four 32-bit numbers a row (kind, a, b, c); `members`, two a member (ordinal, row); and
 * `entries`, 64-bit patterns that strict enums and strict bits name. Each counts from 0; there are 1 to 256 rows, 0 to
 * 1,024 members and 0 to 1,024 entries. Every call judges the table anew. To judge a table alone, ask for the layout of
 * row 0. A struct ratlinery_types, at the end, takes the three lists together.
 *
 *   kind                             a               b                     c
 *    1  bool                         0               0                     0
 *    2  number, enum, bits, float    1, 2, 4, 8      0                     0
 *    3  handle                       1 if optional   0                     0
 *    4  array                        element row     count, 1 to 65,528    0
 *    5  vector                       element row     largest count         1 if optional
 *    6  string                       0               largest byte count    1 if optional
 *    7  struct                       first member    members               0
 *    8  box                          struct row      0                     0
 *    9  table                        first member    members               0
 *   10  union                        first member    members, 1 or more    1 if optional, plus 2 if flexible
 *   11  strict enum                  1, 2, 4, 8      first entry           entries, 1 or more
 *   12  strict bits                  1, 2, 4, 8      the mask's entry      1
 *
 * A table is sound if every row is as above and all that it names exists; an array's element and a struct's members are
 * rows with smaller numbers than its own; a struct's ordinals are 1, 2, 3 and on, a table's or union's are at least 1 and
 * rise; a strict enum's entries rise, as unsigned numbers, and these and a mask lie within their row's bytes; no in-line
 * size is over 65,528. Members and entries that no row names are not judged; rows may share them. A root is a row of kind
 * 7, 9 or 10. Enums and bits of kind 2 are flexible: they take any pattern.
 *
 * Message. At most 65,536 bytes, and a number of handles, at most 64; the handles themselves are never seen.
 *
 * Value list. 64-bit numbers in the order of the message. Struct and array: their parts in turn. Bool, number, enum and
 * bits: the bits. Handle: 1 or 0. Vector, string: 0 absent, else count plus 1 and the elements or bytes. Box: 0, or 1
 * and the struct. Table: the highest present ordinal (0 if none), then for each ordinal up to it 0, or 1 and its content.
 * Union: 0, or ordinal and content. Content of an ordinal that the table's or union's row does not list: byte number (0
 * for content in line), handle number (at most one for four bytes of content), then the 4-byte word or all 8-byte words.
 *
 * Object list. Four 32-bit numbers an object, in the order of the message: kind, row, offset, length without the fill
 * after it. Kinds: 1 the root, 2 a vector's or string's content (row of that), 3 a boxed struct, 4 a table's envelopes
 * (the table's row), 5 an out-of-line payload, 6 unknown out-of-line content (row of the table or union).
 *
 * Lists and buffers.
 * - A list passes as a pointer and the number of its elements (not bytes). A list of length 0 may be any pointer, NULL
 *   included; the tests try it.
 * - 32- and 64-bit lists are aligned to their elements; messages and outputs may start at any byte.
 * - What a function writes (`answer`, `values`, `objects`, `out`) overlaps nothing else that is handed in. What it only
 *   reads may overlap.
 * - On a refusal `values`, `objects` and `out` keep all that they held, with 22 too. When accepted, they keep what they
 *   held past what was given.
 * - No state is kept between calls; calls from several threads need no lock.
 * - A thread with 2 MiB of stack is enough for every call, for the deepest message too.
 */
#ifndef RATLINERY_H
#define RATLINERY_H

#include <stddef.h>
#include <stdint.h>

#ifdef __cplusplus
extern "C" {
#endif

/* What is returned. The first test that fails decides. Behind each number: when it is given | its place, which is a byte
 * of the message where nothing else is named. An index is that of the number judged in the value list. */
enum {
    RATLINERY_ACCEPTED = 0,
    RATLINERY_TABLE_NOT_SOUND = 1,        /* table not sound | lowest bad row; 256 if a list's length is wrong */
    RATLINERY_ROOT_NOT_ALLOWED = 2,       /* no such row, or one that is no root | that row */
    RATLINERY_TOO_MANY_BYTES = 3,         /* over 65,536 bytes | 0; of the writer, index */
    RATLINERY_TOO_MANY_HANDLES = 4,       /* over 64 handles | 0; of the writer, index */
    RATLINERY_TOO_DEEP = 5,               /* depth would be over 32 | record or envelope; of the writer, index */
    RATLINERY_DOES_NOT_FIT = 6,           /* an object does not fit | where it would start */
    RATLINERY_FILL_NOT_ZERO = 7,          /* fill is not zero | first such byte */
    RATLINERY_BAD_BOOL = 8,               /* a bool is not 0 or 1 | byte */
    RATLINERY_BAD_PRESENCE = 9,           /* a presence is neither 0 nor all ones | record or word */
    RATLINERY_REQUIRED_ABSENT = 10,       /* something required is absent | record or word */
    RATLINERY_ABSENT_NOT_ZERO = 11,       /* absent, but its count or envelope is not zero | record */
    RATLINERY_COUNT_TOO_LARGE = 12,       /* a count is over the largest | record */
    RATLINERY_NOT_UTF8 = 13,              /* text is not UTF-8 | first byte of the first sequence that is not allowed */
    RATLINERY_TOO_FEW_HANDLES = 14,       /* too few handles are left | word or envelope */
    RATLINERY_BAD_ENVELOPE = 15,          /* an envelope's flags or form of size are wrong | envelope */
    RATLINERY_BAD_BYTE_NUMBER = 16,       /* an envelope's byte number is wrong | envelope */
    RATLINERY_UNKNOWN_ORDINAL = 17,       /* unknown ordinal in a strict union | union */
    RATLINERY_UNION_WITHOUT_CONTENT = 18, /* a union's ordinal is not 0, its envelope is zero | envelope */
    RATLINERY_LAST_ENVELOPE_ABSENT = 19,  /* a table's last envelope is zero | that envelope */
    RATLINERY_BYTES_LEFT = 20,            /* bytes are left | first of them */
    RATLINERY_HANDLES_LEFT = 21,          /* handles are left | handles used */
    RATLINERY_ROOM_TOO_SMALL = 22,        /* all is well, but the room is too small | needed: bytes or numbers */
    RATLINERY_BAD_MAGIC = 23,             /* a header's magic byte is not 1 | 7 */
    RATLINERY_ORDINAL_ZERO = 24,          /* a header's ordinal is 0 | 8 */
    RATLINERY_EPITAPH_TRANSACTION = 25,   /* an epitaph has a transaction number | 0 */
    RATLINERY_NOT_A_VALUE = 26,           /* the value list is no value of the root | index */
    RATLINERY_BAD_HANDLE_NUMBER = 28,     /* an envelope's handle number is wrong | envelope */
    RATLINERY_UNKNOWN_VALUE = 29,         /* no entry of a strict enum, or a bit outside a mask | field's first byte */
    RATLINERY_IMPOSSIBLE_HANDLES = 35     /* unknown content claims more handles than it has room for | envelope */
};

/* The layout of a row of any kind.
 * answer: place, size in bytes, alignment in bytes.
 * Refusals: 1; 2 at `row` if there is no such row. */
uint32_t ratlinery_layout(const uint32_t *rows, size_t rows_len, const uint32_t *members, size_t members_len,
                          const uint64_t *entries, size_t entries_len, uint32_t row,
                          uint64_t *answer, size_t answer_len);

/* Is a message, with its number of handles, one of the root's type? Any 64-bit number of handles may be asked about.
 * answer: place.
 * Refusals: 1, 2, 3, 4, in this order; 5 to 19, 28, 29, 35; 20, 21. */
uint32_t ratlinery_check(const uint32_t *rows, size_t rows_len, const uint32_t *members, size_t members_len,
                         const uint64_t *entries, size_t entries_len, uint32_t root,
                         const uint8_t *message, size_t message_len, uint64_t handles,
                         uint64_t *answer, size_t answer_len);

/* The value list and the object list of a message, from the start of `values` and `objects` on.
 * answer: place, numbers given in values, numbers given in objects (four an object).
 * Refusals: those of ratlinery_check; then 22 with the numbers needed in objects, then 22 with those needed in values.
 * Together the two lists have at most as many numbers as the message has bytes, and four more. */
uint32_t ratlinery_read(const uint32_t *rows, size_t rows_len, const uint32_t *members, size_t members_len,
                        const uint64_t *entries, size_t entries_len, uint32_t root,
                        const uint8_t *message, size_t message_len, uint64_t handles,
                        uint64_t *values, size_t values_len, uint32_t *objects, size_t objects_len,
                        uint64_t *answer, size_t answer_len);

/* The value list alone.
 * answer: place, numbers given in values.
 * Refusals: those of ratlinery_check; then 22 with the numbers needed. */
uint32_t ratlinery_read_values(const uint32_t *rows, size_t rows_len, const uint32_t *members, size_t members_len,
                               const uint64_t *entries, size_t entries_len, uint32_t root,
                               const uint8_t *message, size_t message_len, uint64_t handles,
                               uint64_t *values, size_t values_len, uint64_t *answer, size_t answer_len);

/* The object list alone.
 * answer: place, numbers given in objects (four an object).
 * Refusals: those of ratlinery_check; then 22 with the numbers needed. */
uint32_t ratlinery_read_objects(const uint32_t *rows, size_t rows_len, const uint32_t *members, size_t members_len,
                                const uint64_t *entries, size_t entries_len, uint32_t root,
                                const uint8_t *message, size_t message_len, uint64_t handles,
                                uint32_t *objects, size_t objects_len, uint64_t *answer, size_t answer_len);

/* Writes a value list as a message, from the start of `out` on. What ratlinery_read_values gave of a message is written
 * as that message again. To learn how much room is needed, write with an `out` of length 0: 22 has it as its place.
 * answer: place, bytes written, handles of the message.
 * Refusals: 1, 2; whichever of 26, 5, 3, 4 is met first, at the index of the number judged (26 at the list's length
 * where it ends early); 26 at the first number left; 22 with the bytes needed. */
uint32_t ratlinery_write(const uint32_t *rows, size_t rows_len, const uint32_t *members, size_t members_len,
                         const uint64_t *entries, size_t entries_len, uint32_t root,
                         const uint64_t *values, size_t values_len, uint8_t *out, size_t out_len,
                         uint64_t *answer, size_t answer_len);

/* The transactional header at the start of a message. The body is the part of the message that its start and its length
 * name; the places of a check of that body count from the body. An epitaph, whose ordinal is all ones, has 24 bytes: the
 * header, a status (4 bytes, signed), and four zero bytes.
 * answer: place, transaction number, three flag bytes (the first one lowest), ordinal, start of the body, its length,
 * status (sign-extended to 64 bits; 0 if the message is no epitaph).
 * Refusals: 3; 6 at 0 under 16 bytes; 23; 24; 25; then, of an epitaph, 6 at 16 under 24 bytes, 7 at the first of bytes
 * 20 to 23 that is not zero, 20 at 24 if there are more bytes. */
uint32_t ratlinery_header_read(const uint8_t *message, size_t message_len, uint64_t *answer, size_t answer_len);

/* Writes the 16 bytes of a header to the start of `out`, those of an epitaph's header too, without its status.
 * answer: place, bytes written (16).
 * Refusals: 24; 25; 22 with 16. */
uint32_t ratlinery_header_write(uint32_t transaction, uint8_t flag0, uint8_t flag1, uint8_t flag2, uint64_t ordinal,
                                uint8_t *out, size_t out_len, uint64_t *answer, size_t answer_len);

/* Writes the 24 bytes of a whole epitaph to the start of `out`: a header with transaction number 0 and an ordinal of all
 * ones, the status, and four zero bytes.
 * answer: place, bytes written (24).
 * Refusals: 22 with 24. */
uint32_t ratlinery_epitaph_write(uint8_t flag0, uint8_t flag1, uint8_t flag2, int32_t status, uint8_t *out,
                                 size_t out_len, uint64_t *answer, size_t answer_len);

/* Is a text UTF-8 by RFC 3629, as a message's strings must be? It may have any number of bytes.
 * answer: place.
 * Refusals: 13, whose place counts from the text's start. */
uint32_t ratlinery_utf8(const uint8_t *text, size_t text_len, uint64_t *answer, size_t answer_len);

#ifdef RATLINERY_PREPARED
/* In work: prepared states. The library does not have these functions yet.
 *
 * Prepared state. A list of RATLINERY_STATE 32-bit numbers that the caller keeps beside the three lists: how many rows,
 * members and entries are in use, then 256 sizes and 256 alignments, each with a number for every row in use and 0 for the
 * others. All zero is the start state. A state agrees with lists if preparing them gives it; the start state agrees with
 * empty ones. No other list does: not one of another length, nor one with a number that is no count, size or alignment
 * of these lists. Rows, members and entries are added at the end of their lists (ratlinery_append) and taken off there
 * (ratlinery_go_back); what stands before is not changed meanwhile.
 *
 * A state, too, overlaps nothing else that is handed in where it is written, keeps all that it held on a refusal, and past what was given
 * when accepted. With 1, row 256 also stands for a count to go back to. */
enum {
    RATLINERY_STATE_DISAGREES = 34,       /* a prepared state does not agree with the lists | 0 */
    RATLINERY_STATE = 515                 /* how many numbers a prepared state has */
};

/* Stores the state of a whole type table to the start of `state`, whatever that held.
 * answer: place.
 * Refusals: 1; 22 with RATLINERY_STATE. */
uint32_t ratlinery_prepare(const uint32_t *rows, size_t rows_len, const uint32_t *members, size_t members_len,
                           const uint64_t *entries, size_t entries_len, uint32_t *state, size_t state_len,
                           uint64_t *answer, size_t answer_len);

/* The state after rows, members and entries were added: the lists are the whole ones, with what was added at their end.
 * What was added may be empty; from the start state, it is the whole table.
 * answer: place.
 * Refusals: 1, of the whole lists; 34 if the state does not agree with the lists cut to its counts. */
uint32_t ratlinery_append(const uint32_t *rows, size_t rows_len, const uint32_t *members, size_t members_len,
                          const uint64_t *entries, size_t entries_len, uint32_t *state, size_t state_len,
                          uint64_t *answer, size_t answer_len);

/* The state of the first `to_rows` rows, `to_members` members and `to_entries` entries. The lists are those of the state;
 * what they hold past its counts is not judged.
 * answer: place.
 * Refusals: 1, at 256 if a count to go back to is above the state's (a `state` of another length has none) or above what
 * the lists hold, else of the lists cut to the counts to go back to; 34 if the state does not agree with the lists cut to
 * its counts. */
uint32_t ratlinery_go_back(const uint32_t *rows, size_t rows_len, const uint32_t *members, size_t members_len,
                           const uint64_t *entries, size_t entries_len, uint64_t to_rows, uint64_t to_members,
                           uint64_t to_entries, uint32_t *state, size_t state_len, uint64_t *answer,
                           size_t answer_len);

/* As ratlinery_check, with the state of the whole lists.
 * answer: place.
 * Refusals: 1; 34 if the state does not agree with the lists; then those of ratlinery_check from 2 on. */
uint32_t ratlinery_check_prepared(const uint32_t *rows, size_t rows_len, const uint32_t *members, size_t members_len,
                                  const uint64_t *entries, size_t entries_len, const uint32_t *state,
                                  size_t state_len, uint32_t root, const uint8_t *message, size_t message_len,
                                  uint64_t handles, uint64_t *answer, size_t answer_len);
#endif

/* A type table's three lists together. For each function ratlinery_NAME that takes the lists, ratlinery_types_NAME takes a
 * pointer to this in their place, and is the same else. */
struct ratlinery_types {
    const uint32_t *rows;
    size_t rows_len;
    const uint32_t *members;
    size_t members_len;
    const uint64_t *entries;
    size_t entries_len;
};

/* As the functions take them. */
#define RATLINERY_LISTS                                                                                                \
    types->rows, types->rows_len, types->members, types->members_len, types->entries, types->entries_len

static inline uint32_t ratlinery_types_layout(const struct ratlinery_types *types, uint32_t row, uint64_t *answer,
                                              size_t answer_len) {
    return ratlinery_layout(RATLINERY_LISTS, row, answer, answer_len);
}

static inline uint32_t ratlinery_types_check(const struct ratlinery_types *types, uint32_t root,
                                             const uint8_t *message, size_t message_len, uint64_t handles,
                                             uint64_t *answer, size_t answer_len) {
    return ratlinery_check(RATLINERY_LISTS, root, message, message_len, handles, answer, answer_len);
}

static inline uint32_t ratlinery_types_read(const struct ratlinery_types *types, uint32_t root, const uint8_t *message,
                                            size_t message_len, uint64_t handles, uint64_t *values, size_t values_len,
                                            uint32_t *objects, size_t objects_len, uint64_t *answer,
                                            size_t answer_len) {
    return ratlinery_read(RATLINERY_LISTS, root, message, message_len, handles, values, values_len, objects,
                          objects_len, answer, answer_len);
}

static inline uint32_t ratlinery_types_read_values(const struct ratlinery_types *types, uint32_t root,
                                                   const uint8_t *message, size_t message_len, uint64_t handles,
                                                   uint64_t *values, size_t values_len, uint64_t *answer,
                                                   size_t answer_len) {
    return ratlinery_read_values(RATLINERY_LISTS, root, message, message_len, handles, values, values_len, answer,
                                 answer_len);
}

static inline uint32_t ratlinery_types_read_objects(const struct ratlinery_types *types, uint32_t root,
                                                    const uint8_t *message, size_t message_len, uint64_t handles,
                                                    uint32_t *objects, size_t objects_len, uint64_t *answer,
                                                    size_t answer_len) {
    return ratlinery_read_objects(RATLINERY_LISTS, root, message, message_len, handles, objects, objects_len, answer,
                                  answer_len);
}

static inline uint32_t ratlinery_types_write(const struct ratlinery_types *types, uint32_t root, const uint64_t *values,
                                             size_t values_len, uint8_t *out, size_t out_len, uint64_t *answer,
                                             size_t answer_len) {
    return ratlinery_write(RATLINERY_LISTS, root, values, values_len, out, out_len, answer, answer_len);
}

#ifdef RATLINERY_PREPARED
static inline uint32_t ratlinery_types_prepare(const struct ratlinery_types *types, uint32_t *state, size_t state_len,
                                               uint64_t *answer, size_t answer_len) {
    return ratlinery_prepare(RATLINERY_LISTS, state, state_len, answer, answer_len);
}

static inline uint32_t ratlinery_types_append(const struct ratlinery_types *types, uint32_t *state, size_t state_len,
                                              uint64_t *answer, size_t answer_len) {
    return ratlinery_append(RATLINERY_LISTS, state, state_len, answer, answer_len);
}

static inline uint32_t ratlinery_types_go_back(const struct ratlinery_types *types, uint64_t to_rows,
                                               uint64_t to_members, uint64_t to_entries, uint32_t *state,
                                               size_t state_len, uint64_t *answer, size_t answer_len) {
    return ratlinery_go_back(RATLINERY_LISTS, to_rows, to_members, to_entries, state, state_len, answer, answer_len);
}

static inline uint32_t ratlinery_types_check_prepared(const struct ratlinery_types *types, const uint32_t *state,
                                                      size_t state_len, uint32_t root, const uint8_t *message,
                                                      size_t message_len, uint64_t handles, uint64_t *answer,
                                                      size_t answer_len) {
    return ratlinery_check_prepared(RATLINERY_LISTS, state, state_len, root, message, message_len, handles, answer,
                                    answer_len);
}
#endif

#undef RATLINERY_LISTS

#ifdef __cplusplus
}
#endif

#endif
