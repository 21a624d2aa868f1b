/* A trailer added to a message: the worked examples of document 02, K3, by their numbers, and the refusals in their order.
 * Part of test.c. */

static void additions_written(void) {
    /* 1 to 4 */
    EXPECT(sluicepod_add_trailer(BYTES("t"), BYTES("A"), BYTES("v"), OUT, RESULT), SLUICEPOD_OK, "t\n\nA: v\n", 1, 8);
    EXPECT(sluicepod_add_trailer(BYTES("t\r"), BYTES("A"), BYTES("v"), OUT, RESULT), SLUICEPOD_OK, "t\r\n\nA: v\n", 1, 9);
    EXPECT(sluicepod_add_trailer(BYTES("t\r\n\r\n"), BYTES("A"), BYTES("v"), OUT, RESULT), SLUICEPOD_OK,
           "t\r\n\r\nA: v\r\n", 1, 11);
    EXPECT(sluicepod_add_trailer(BYTES("t\n\nB: c\n\n \n"), BYTES("A"), BYTES("v"), OUT, RESULT), SLUICEPOD_OK,
           "t\n\nB: c\nA: v\n", 1, 13);
    /* just the room that is needed */
    EXPECT(sluicepod_add_trailer(BYTES("t"), BYTES("A"), BYTES(""), out, 7, RESULT), SLUICEPOD_OK, "t\n\nA: \n", 1, 7);
    /* bytes, not text: no UTF-8 in the message, a CR in the value */
    EXPECT(sluicepod_add_trailer(BYTES("t\377"), BYTES("A-1"), BYTES("v\rw"), OUT, RESULT), SLUICEPOD_OK,
           "t\377\n\nA-1: v\rw\n", 1, 13);
}

static void additions_refused(void) {
    /* 5 and 6 */
    EXPECT(sluicepod_add_trailer(BYTES(""), BYTES(""), BYTES(" "), OUT, RESULT), SLUICEPOD_BAD_TOKEN, "", 0);
    EXPECT(sluicepod_add_trailer(BYTES("t"), BYTES("A"), BYTES(""), out, 4, RESULT), SLUICEPOD_NO_ROOM, "", 1, 7);
    /* each before those behind it */
    EXPECT(sluicepod_add_trailer(BYTES(""), BYTES("A b"), BYTES("\n"), out, 0, RESULT), SLUICEPOD_BAD_TOKEN, "", 0);
    EXPECT(sluicepod_add_trailer(BYTES(""), BYTES("A"), BYTES("v\nw"), out, 0, RESULT), SLUICEPOD_BAD_VALUE, "", 0);
    EXPECT(sluicepod_add_trailer(BYTES(""), BYTES("A"), BYTES("v\302\240"), out, 0, RESULT), SLUICEPOD_BAD_VALUE, "", 0);
    EXPECT(sluicepod_add_trailer(BYTES(" \n\r\n"), BYTES("A"), BYTES("v"), out, 0, RESULT), SLUICEPOD_NOTHING_TO_STAND_ON, "", 0);
    for (size_t len = 0; len < SLUICEPOD_RESULT_LEN; len++)
        EXPECT_NOTHING_WRITTEN(sluicepod_add_trailer(BYTES("t"), BYTES(""), BYTES("v"), OUT, result, len), SLUICEPOD_SHORT_RESULT);
}

static void additions_limit(void) {
    size_t limit = SLUICEPOD_LIMIT;
    uint8_t *input = malloc(limit + 1), *room = malloc(limit);
    if (input == NULL || room == NULL)
        abort();
    memset(input, 'x', limit + 1);
    /* each input */
    EXPECT(sluicepod_add_trailer(input, limit + 1, BYTES(""), BYTES("v"), OUT, RESULT), SLUICEPOD_TOO_LONG, "", 0);
    EXPECT(sluicepod_add_trailer(BYTES("t"), input, limit + 1, BYTES(" "), OUT, RESULT), SLUICEPOD_TOO_LONG, "", 0);
    EXPECT(sluicepod_add_trailer(BYTES("t"), BYTES(""), input, limit + 1, OUT, RESULT), SLUICEPOD_TOO_LONG, "", 0);
    /* inputs of just that length are judged, and only the result is too long */
    EXPECT(sluicepod_add_trailer(input, limit, BYTES(""), BYTES("v"), OUT, RESULT), SLUICEPOD_BAD_TOKEN, "", 0);
    EXPECT(sluicepod_add_trailer(BYTES(""), input, limit, BYTES("v"), OUT, RESULT), SLUICEPOD_NOTHING_TO_STAND_ON, "", 0);
    EXPECT(sluicepod_add_trailer(BYTES(""), BYTES("A"), input, limit, OUT, RESULT), SLUICEPOD_NOTHING_TO_STAND_ON, "", 0);
    EXPECT(sluicepod_add_trailer(input, limit, BYTES("A"), BYTES("v"), OUT, RESULT), SLUICEPOD_TOO_LONG, "", 0);
    EXPECT(sluicepod_add_trailer(BYTES("t"), input, limit, BYTES("v"), OUT, RESULT), SLUICEPOD_TOO_LONG, "", 0);
    EXPECT(sluicepod_add_trailer(BYTES("t"), BYTES("A"), input, limit, OUT, RESULT), SLUICEPOD_TOO_LONG, "", 0);
    /* a result of just that length, and one more */
    EXPECT(sluicepod_add_trailer(input, limit - 6, BYTES("A"), BYTES("v"), OUT, RESULT), SLUICEPOD_TOO_LONG, "", 0);
    EXPECT(sluicepod_add_trailer(input, limit - 7, BYTES("A"), BYTES("v"), OUT, RESULT), SLUICEPOD_NO_ROOM, "", 1, limit);
    EXPECT(sluicepod_add_trailer(input, limit - 7, BYTES("A"), BYTES("v"), room, limit, RESULT), SLUICEPOD_OK, "", 1, limit);
    check(__LINE__, "the result at the limit", SLUICEPOD_OK,
          memcmp(room, input, limit - 7) == 0 && memcmp(room + limit - 7, "\n\nA: v\n", 7) == 0);
    free(input);
    free(room);
}

static void additions(void) {
    additions_written();
    additions_refused();
    additions_limit();
}
