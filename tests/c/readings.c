/* Both readings of a message: document 02's examples K7.1 to K7.6, each call in each reading, a walk, and the refusals.
 * test.c includes this file. */

/* Where a message ends, whole and above its first divider. */
#define EXPECT_ENDS(message, whole, above)                                                                             \
    do {                                                                                                               \
        EXPECT(sluicepod_message_end(BYTES(message), SLUICEPOD_WHOLE, RESULT), SLUICEPOD_OK, "", 1, whole);            \
        EXPECT(sluicepod_message_end(BYTES(message), SLUICEPOD_ABOVE_DIVIDER, RESULT), SLUICEPOD_OK, "", 1, above);    \
    } while (0)

static void ends(void) {
    /* K7.1 to K7.4 */
    EXPECT_ENDS("t\n\nA: b\n---\nx", 13, 8);
    EXPECT_ENDS("t\n---", 5, 2);
    EXPECT_ENDS("t\n---\t\n", 7, 7);
    EXPECT_ENDS("t\n---\r\n", 7, 2);
    /* the first of two; the first line; a space and more; a lone CR at the end; none */
    EXPECT_ENDS("a\n---\nb\n---\n", 12, 2);
    EXPECT_ENDS("---\nA: b", 8, 0);
    EXPECT_ENDS("a\n--- b\nc", 9, 2);
    EXPECT_ENDS("a\n---\r", 6, 2);
    EXPECT_ENDS("a\n---\r\r\n", 8, 8);
    EXPECT_ENDS("----\n --\n ---\n--\n---\f\n", 22, 22);
    EXPECT_ENDS("", 0, 0);
}

/* Where the walk of a message's trailers begins. */
static void expect_walk(int line, const uint8_t *message, size_t len, uint32_t reading, size_t at) {
    reset();
    uint32_t code = sluicepod_message_trailers_in(message, len, reading, RESULT);
    check(line, "sluicepod_message_trailers_in", code, code == SLUICEPOD_OK && result[1] == at);
}

static void calls_in_readings(void) {
    /* K7.5 */
    expect_walk(__LINE__, BYTES("t\n\nx\n---\n\nA: b"), SLUICEPOD_ABOVE_DIVIDER, 5);
    expect_walk(__LINE__, BYTES("t\n\nx\n---\n\nA: b"), SLUICEPOD_WHOLE, 8);
    EXPECT(sluicepod_title_and_body_in(BYTES("t\n---\n\nA: b"), SLUICEPOD_WHOLE, RESULT), SLUICEPOD_OK, "", 2, 5, 7);
    EXPECT(sluicepod_title_and_body_in(BYTES("t\n---\n\nA: b"), SLUICEPOD_ABOVE_DIVIDER, RESULT), SLUICEPOD_OK, "", 1, 2);
    EXPECT(sluicepod_message_summary_in(BYTES("a\nb\n---\nc"), SLUICEPOD_WHOLE, OUT, RESULT), SLUICEPOD_OK, "a b --- c", 3, 1, 0, 9);
    EXPECT(sluicepod_message_summary_in(BYTES("a\nb\n---\nc"), SLUICEPOD_ABOVE_DIVIDER, OUT, RESULT), SLUICEPOD_OK, "a b", 3, 1, 0, 3);
    EXPECT(sluicepod_message_summary_in(BYTES("a\nb\n---\nc"), SLUICEPOD_ABOVE_DIVIDER, out, 2, RESULT), SLUICEPOD_NO_ROOM, "", 1, 3);
    EXPECT(sluicepod_message_summary_in(BYTES("a\n---\nc"), SLUICEPOD_ABOVE_DIVIDER, out, 0, RESULT), SLUICEPOD_OK, "", 3, 0, 0, 1);
}

/* Of the message up to its end the calls on a body find `A`; of the uncut one they find nothing, since no line of it is
 * recognised. */
static void body_above_a_divider(void) {
    static const char message[] = "t\n\nA: b\n---\nB: c";
    const uint8_t *body = (const uint8_t *)message + 3;
    expect_walk(__LINE__, BYTES(message), SLUICEPOD_ABOVE_DIVIDER, 3);
    EXPECT(sluicepod_message_end(BYTES(message), SLUICEPOD_ABOVE_DIVIDER, RESULT), SLUICEPOD_OK, "", 1, 8);
    reset();
    uint32_t code = sluicepod_find_trailer(body, 8 - 3, BYTES("A"), OUT, RESULT);
    check(__LINE__, "A above the divider", code, code == SLUICEPOD_OK && result[0] > 0 && result[1] == 0);
    EXPECT(sluicepod_find_trailer(body, sizeof message - 1 - 3, BYTES("A"), OUT, RESULT), SLUICEPOD_OK, "", 0);
}

/* K7.6: the message uncut is over the limit. No reading: before the limit is looked at, and behind a short result. */
static void reading_refusals(void) {
    size_t len = SLUICEPOD_LIMIT;
    uint8_t *input = malloc(len + 1);
    if (input == NULL)
        exit(2);
    memset(input, 'x', len + 1);
    memcpy(input, "---\n", 4);
    for (uint32_t reading = 0; reading <= SLUICEPOD_ABOVE_DIVIDER; reading++) {
        EXPECT(sluicepod_message_end(input, len, reading, RESULT), SLUICEPOD_OK, "", 1, reading ? 0 : len);
        EXPECT(sluicepod_message_end(input, len + 1, reading, RESULT), SLUICEPOD_TOO_LONG, "", 0);
        EXPECT(sluicepod_title_and_body_in(input, len, reading, RESULT), SLUICEPOD_OK, "", 1, reading ? 0 : len);
        EXPECT(sluicepod_title_and_body_in(input, len + 1, reading, RESULT), SLUICEPOD_TOO_LONG, "", 0);
        EXPECT(sluicepod_message_summary_in(input, len + 1, reading, OUT, RESULT), SLUICEPOD_TOO_LONG, "", 0);
        EXPECT(sluicepod_message_trailers_in(input, len, reading, RESULT), SLUICEPOD_OK, "", 2, reading ? 0 : len, reading ? 1 : 2);
        EXPECT(sluicepod_message_trailers_in(input, len + 1, reading, RESULT), SLUICEPOD_TOO_LONG, "", 0);
    }
    EXPECT(sluicepod_message_summary_in(input, len, SLUICEPOD_WHOLE, OUT, RESULT), SLUICEPOD_NO_ROOM, "", 1, len);
    EXPECT(sluicepod_message_summary_in(input, len, SLUICEPOD_ABOVE_DIVIDER, OUT, RESULT), SLUICEPOD_OK, "", 3, 0, 0, 0);
    EXPECT(sluicepod_message_end(input, len + 1, 2, RESULT), SLUICEPOD_NO_READING, "", 0);
    EXPECT(sluicepod_title_and_body_in(input, len + 1, 2, RESULT), SLUICEPOD_NO_READING, "", 0);
    EXPECT(sluicepod_message_summary_in(input, len + 1, UINT32_MAX, OUT, RESULT), SLUICEPOD_NO_READING, "", 0);
    EXPECT(sluicepod_message_trailers_in(input, len + 1, 2, RESULT), SLUICEPOD_NO_READING, "", 0);
    free(input);
    for (size_t short_len = 0; short_len < SLUICEPOD_RESULT_LEN; short_len++) {
        EXPECT_NOTHING_WRITTEN(sluicepod_message_end(BYTES("a"), 0, result, short_len), SLUICEPOD_SHORT_RESULT);
        EXPECT_NOTHING_WRITTEN(sluicepod_title_and_body_in(BYTES("a"), 2, result, short_len), SLUICEPOD_SHORT_RESULT);
        EXPECT_NOTHING_WRITTEN(sluicepod_message_summary_in(BYTES("a\nb"), 1, OUT, result, short_len), SLUICEPOD_SHORT_RESULT);
        EXPECT_NOTHING_WRITTEN(sluicepod_message_trailers_in(BYTES("a"), 1, result, short_len), SLUICEPOD_SHORT_RESULT);
    }
}

static void readings(void) {
    ends();
    calls_in_readings();
    body_above_a_divider();
    reading_refusals();
}
