/* The foot of a body: the worked examples of document 02, K6, by their numbers, and the refusals in their order. Part of
 * test.c; the table is that of lists.c. */

enum { TORN = 0, ALL = 1 };

static void feet(void) {
    /* 1 to 3 */
    EXPECT_LISTED(sluicepod_list_foot(BYTES("x\n\nA: b"), TORN, table, 7, out, 0, RESULT), SLUICEPOD_OK, "",
                  RECORDS(4, 3, 0, 1, 0, 3, 1), 3, 1, 0, 2);
    EXPECT_LISTED(sluicepod_list_foot(BYTES("\nA: b"), TORN, table, 7, out, 0, RESULT), SLUICEPOD_MORE_BYTES, "", NO_RECORDS, 0);
    EXPECT_LISTED(sluicepod_list_foot(BYTES("\nA: b"), ALL, table, 7, out, 0, RESULT), SLUICEPOD_OK, "",
                  RECORDS(4, 3, 0, 1, 0, 3, 1), 3, 1, 0, 2);
    /* 4 to 6 */
    EXPECT_LISTED(sluicepod_list_foot(BYTES("x\n\nA: b\n\n \n"), TORN, table, 7, out, 0, RESULT), SLUICEPOD_OK, "",
                  RECORDS(8, 7, 0, 5, 4, 0, 3), 3, 1, 0, 4);
    EXPECT_LISTED(sluicepod_list_foot(BYTES("x\n\n\n"), TORN, table, 0, out, 0, RESULT), SLUICEPOD_MORE_BYTES, "", NO_RECORDS, 0);
    EXPECT_LISTED(sluicepod_list_foot(BYTES("x\n\nA: b\n c\nB: d\n"), TORN, table, 7, out, 0, RESULT), SLUICEPOD_SHORT_TABLE, "",
                  NO_RECORDS, 2, 2, 3);
    /* one byte less than is needed, and as many; what is behind stays. Numbers fall along the walk */
    EXPECT_LISTED(sluicepod_list_foot(BYTES("x\n\nA: b\n c\nB: d\n"), TORN, table, 14, out, 2, RESULT), SLUICEPOD_NO_ROOM, "",
                  NO_RECORDS, 2, 2, 3);
    EXPECT_LISTED(sluicepod_list_foot(BYTES("x\n\nA: b\n c\nB: d\n"), TORN, table, TABLE_LEN, out, 3, RESULT), SLUICEPOD_OK, "b c",
                  RECORDS(13, 12, 1, 0, 3, 0, 3, 5, 4, 0, 2, 1, 0, 1), 3, 2, 3, 4);
    /* any number but 0 says that the bytes are all; nothing at all is a whole body too */
    EXPECT_LISTED(sluicepod_list_foot(BYTES("A: b"), 7, table, TABLE_LEN, OUT, RESULT), SLUICEPOD_OK, "", RECORDS(4, 3, 0, 1, 0, 3, 1), 3, 1, 0, 1);
    EXPECT_LISTED(sluicepod_list_foot(BYTES(""), ALL, table, 0, out, 0, RESULT), SLUICEPOD_OK, "", NO_RECORDS, 3, 0, 0, 0);
    EXPECT_LISTED(sluicepod_list_foot(BYTES(""), TORN, table, 0, out, 0, RESULT), SLUICEPOD_MORE_BYTES, "", NO_RECORDS, 0);
    /* at the limit, and one byte above it */
    size_t limit = SLUICEPOD_LIMIT;
    uint8_t *input = malloc(limit + 1);
    if (input == NULL)
        exit(2);
    memset(input, 'x', limit + 1);
    memcpy(input + limit - 6, "\n\nA: b", 6);
    EXPECT_LISTED(sluicepod_list_foot(input, limit, TORN, table, TABLE_LEN, OUT, RESULT), SLUICEPOD_OK, "",
                  RECORDS(4, 3, 0, 1, 0, 3, 1), 3, 1, 0, 2);
    EXPECT_LISTED(sluicepod_list_foot(input, limit + 1, TORN, table, TABLE_LEN, OUT, RESULT), SLUICEPOD_TOO_LONG, "", NO_RECORDS, 0);
    free(input);
    for (size_t len = 0; len < SLUICEPOD_RESULT_LEN; len++) {
        reset_table();
        EXPECT_NOTHING_WRITTEN(sluicepod_list_foot(BYTES("x\n\nA: b"), TORN, table, TABLE_LEN, OUT, result, len), SLUICEPOD_SHORT_RESULT);
    }
}
