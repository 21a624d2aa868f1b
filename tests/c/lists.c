/* All trailers at once: the worked examples of document 02, K1, by their numbers, and the refusals in their order. Part of
 * test.c. */

enum { TABLE_LEN = 4 * SLUICEPOD_RECORD_LEN + 1 };

static size_t table[TABLE_LEN];

static void reset_table(void) {
    for (size_t i = 0; i < TABLE_LEN; i++)
        table[i] = KEPT_ENTRY;
}

/* Whether the table begins with these numbers, and all behind them is as it was. */
static int is_in_table(const size_t *numbers, size_t count) {
    for (size_t i = 0; i < TABLE_LEN; i++)
        if (table[i] != (i < count ? numbers[i] : KEPT_ENTRY))
            return 0;
    return 1;
}

#define RECORDS(...) (const size_t[]){__VA_ARGS__}, sizeof((const size_t[]){__VA_ARGS__}) / sizeof(size_t)

/* As EXPECT, with the numbers that must be at the front of the table. */
#define EXPECT_LISTED(call, code, text, numbers, ...)                                                                  \
    do {                                                                                                               \
        reset_table();                                                                                                 \
        EXPECT(call, code, text, __VA_ARGS__);                                                                         \
        checks++;                                                                                                      \
        if (!is_in_table(numbers)) {                                                                                   \
            failures++;                                                                                                \
            printf("lists.c:%d: %s: the table is another\n", __LINE__, #call);                                         \
        }                                                                                                              \
    } while (0)

#define NO_RECORDS NULL, 0

#define THREE_TRAILERS "A: b\nB: c\n d\nC:\n e\n f"
#define NOTE "t\n\nx\n\nVehicle: 7\nRecords: 318,\n 22 late\n"

static void lists(void) {
    /* 1 to 3 */
    EXPECT_LISTED(sluicepod_list_from(BYTES(THREE_TRAILERS), 0, 1, table, TABLE_LEN, out, 8, RESULT), SLUICEPOD_OK, "c de f",
                  RECORDS(0, 1, 0, 3, 4, 0, 1, 5, 6, 1, 0, 3, 0, 2, 13, 14, 1, 3, 6, 3, 4), 2, 3, 6);
    EXPECT_LISTED(sluicepod_list_from(BYTES(THREE_TRAILERS), 0, 1, table, 20, out, 5, RESULT), SLUICEPOD_SHORT_TABLE, "",
                  NO_RECORDS, 2, 3, 6);
    EXPECT_LISTED(sluicepod_list_from(BYTES(THREE_TRAILERS), 0, 1, table, 21, out, 5, RESULT), SLUICEPOD_NO_ROOM, "",
                  NO_RECORDS, 2, 3, 6);
    /* 4 and 5 */
    EXPECT_LISTED(sluicepod_list_from(BYTES("A: b\n"), 6, 1, table, 0, out, 0, RESULT), SLUICEPOD_BAD_PLACE, "", NO_RECORDS, 0);
    EXPECT_LISTED(sluicepod_list_from(BYTES("x"), 1, 1, table, 0, out, 0, RESULT), SLUICEPOD_OK, "", NO_RECORDS, 2, 0, 0);
    /* 6 */
    EXPECT_LISTED(sluicepod_list_trailers(BYTES(NOTE), SLUICEPOD_WHOLE, table, 14, out, 12, RESULT), SLUICEPOD_OK, "318, 22 late",
                  RECORDS(6, 13, 0, 15, 16, 0, 5, 17, 24, 1, 0, 12, 0, 6), 2, 2, 12);
    /* the same from where the walk of this message begins; and one room less, one byte less, and none at all */
    EXPECT_LISTED(sluicepod_list_from(BYTES(NOTE), 6, 5, table, 14, out, 12, RESULT), SLUICEPOD_OK, "318, 22 late",
                  RECORDS(6, 13, 0, 15, 16, 0, 5, 17, 24, 1, 0, 12, 0, 6), 2, 2, 12);
    EXPECT_LISTED(sluicepod_list_trailers(BYTES(NOTE), SLUICEPOD_WHOLE, table, 13, out, 12, RESULT), SLUICEPOD_SHORT_TABLE, "",
                  NO_RECORDS, 2, 2, 12);
    EXPECT_LISTED(sluicepod_list_trailers(BYTES(NOTE), SLUICEPOD_WHOLE, table, 14, out, 11, RESULT), SLUICEPOD_NO_ROOM, "",
                  NO_RECORDS, 2, 2, 12);
    EXPECT_LISTED(sluicepod_list_trailers(BYTES(NOTE), SLUICEPOD_WHOLE, table, 0, out, 0, RESULT), SLUICEPOD_SHORT_TABLE, "",
                  NO_RECORDS, 2, 2, 12);
    /* a patch below a divider is read in the first reading alone */
    EXPECT_LISTED(sluicepod_list_trailers(BYTES("t\n\nA: b\n---\n\nB: c"), SLUICEPOD_ABOVE_DIVIDER, table, TABLE_LEN, OUT, RESULT),
                  SLUICEPOD_OK, "", RECORDS(3, 4, 0, 6, 7, 0, 3), 2, 1, 0);
    EXPECT_LISTED(sluicepod_list_trailers(BYTES("t\n\nA: b\n---\n\nB: c"), SLUICEPOD_WHOLE, table, TABLE_LEN, OUT, RESULT),
                  SLUICEPOD_OK, "", RECORDS(13, 14, 0, 16, 17, 3, 6), 2, 1, 0);
    EXPECT_LISTED(sluicepod_list_trailers(BYTES(NOTE), 2, table, TABLE_LEN, OUT, RESULT), SLUICEPOD_NO_READING, "", NO_RECORDS, 0);
    /* a number that belongs to no place */
    EXPECT_LISTED(sluicepod_list_from(BYTES("A: b\n"), 0, 2, table, TABLE_LEN, OUT, RESULT), SLUICEPOD_BAD_PLACE, "", NO_RECORDS, 0);
    /* at the limit, and one byte above it */
    size_t limit = SLUICEPOD_LIMIT;
    uint8_t *input = malloc(limit + 1);
    if (input == NULL)
        exit(2);
    memset(input, 'x', limit + 1);
    memcpy(input, "A: b\n", 5);
    EXPECT_LISTED(sluicepod_list_from(input, limit, 0, 1, table, TABLE_LEN, OUT, RESULT), SLUICEPOD_OK, "",
                  RECORDS(0, 1, 0, 3, 4, 0, 1), 2, 1, 0);
    EXPECT_LISTED(sluicepod_list_from(input, limit + 1, 0, 1, table, TABLE_LEN, OUT, RESULT), SLUICEPOD_TOO_LONG, "", NO_RECORDS, 0);
    memcpy(input, "---\n\n", 5);
    EXPECT_LISTED(sluicepod_list_trailers(input, limit, SLUICEPOD_ABOVE_DIVIDER, table, TABLE_LEN, OUT, RESULT), SLUICEPOD_OK, "",
                  NO_RECORDS, 2, 0, 0);
    EXPECT_LISTED(sluicepod_list_trailers(input, limit + 1, SLUICEPOD_ABOVE_DIVIDER, table, TABLE_LEN, OUT, RESULT),
                  SLUICEPOD_TOO_LONG, "", NO_RECORDS, 0);
    free(input);
    for (size_t len = 0; len < SLUICEPOD_RESULT_LEN; len++) {
        reset_table();
        EXPECT_NOTHING_WRITTEN(sluicepod_list_from(BYTES(THREE_TRAILERS), 0, 1, table, TABLE_LEN, OUT, result, len), SLUICEPOD_SHORT_RESULT);
        EXPECT_NOTHING_WRITTEN(sluicepod_list_trailers(BYTES(NOTE), SLUICEPOD_WHOLE, table, TABLE_LEN, OUT, result, len), SLUICEPOD_SHORT_RESULT);
    }
}
