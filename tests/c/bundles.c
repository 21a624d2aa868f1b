/* Bundles: the worked examples of document 02, K11, by their numbers, and the refusals in their order. Part of test.c. */

#define RANGES(...) (const size_t[]){__VA_ARGS__}, sizeof((const size_t[]){__VA_ARGS__}) / sizeof(size_t)

/* As EXPECT, with bytes that may hold zeros for what is in `out`. */
#define EXPECT_BYTES(call, code, bytes, ...)                                                                           \
    do {                                                                                                               \
        const size_t want[] = {__VA_ARGS__};                                                                           \
        reset();                                                                                                       \
        uint32_t got = call;                                                                                           \
        int there = memcmp(out, bytes, sizeof(bytes) - 1) == 0;                                                        \
        memset(out, KEPT_BYTE, sizeof(bytes) - 1);                                                                     \
        check(__LINE__, #call, got, got == code && there && is_left("", want, sizeof want / sizeof want[0]));          \
    } while (0)

#define THREE "\3\0\0\0\24\0\0\0\26\0\0\0\26\0\0\0\30\0\0\0b\nab"

static void bundles_written(void) {
    static const size_t none[1];
    static size_t many[2 * 4097];
    /* 1 to 3 */
    EXPECT_BYTES(sluicepod_write_bundle(BYTES(""), none, 0, out, 9, RESULT), SLUICEPOD_OK, "\0\0\0\0\10\0\0\0", 1, 8);
    EXPECT_BYTES(sluicepod_write_bundle(BYTES("ab\n"), RANGES(1, 3, 2, 2, 0, 2), out, 26, RESULT), SLUICEPOD_OK, THREE, 1, 24);
    EXPECT_BYTES(sluicepod_write_bundle(BYTES("ab"), RANGES(0, 2), out, 13, RESULT), SLUICEPOD_NO_ROOM, "", 1, 14);
    /* 4 and 5 */
    many[2 * 4096] = 2;
    many[2 * 4096 + 1] = 1;
    EXPECT(sluicepod_write_bundle(BYTES("ab"), many, 2 * 4097, out, 0, RESULT), SLUICEPOD_BAD_PLACE, "", 0);
    many[2 * 4096] = 0;
    many[2 * 4096 + 1] = 0;
    EXPECT(sluicepod_write_bundle(BYTES("ab"), many, 2 * 4097, out, 0, RESULT), SLUICEPOD_NOT_A_BUNDLE, "", 0);
    EXPECT(sluicepod_write_bundle(BYTES("ab"), many, 2 * 4096, out, 0, RESULT), SLUICEPOD_NO_ROOM, "", 1, 16392);
    /* a start without an end */
    EXPECT(sluicepod_write_bundle(BYTES("ab"), RANGES(0, 2, 1), OUT, RESULT), SLUICEPOD_BAD_PLACE, "", 0);
}

static void bundles_read(void) {
    EXPECT(sluicepod_bundle_count(BYTES(THREE), RESULT), SLUICEPOD_OK, "", 1, 3);
    EXPECT(sluicepod_bundle_message(BYTES(THREE), 0, RESULT), SLUICEPOD_OK, "", 2, 20, 22);
    EXPECT(sluicepod_bundle_message(BYTES(THREE), 1, RESULT), SLUICEPOD_OK, "", 2, 22, 22);
    EXPECT(sluicepod_bundle_message(BYTES(THREE), 3, RESULT), SLUICEPOD_OK, "", 0);
    EXPECT(sluicepod_bundle_message(BYTES(THREE), SIZE_MAX, RESULT), SLUICEPOD_OK, "", 0);
    /* 6 */
    EXPECT(sluicepod_bundle_count(BYTES("\0\0\0\0\10\0\0\0z"), RESULT), SLUICEPOD_NOT_A_BUNDLE, "", 0);
    EXPECT(sluicepod_bundle_message(BYTES("\0\0\0\0\10\0\0\0z"), 0, RESULT), SLUICEPOD_NOT_A_BUNDLE, "", 0);
    EXPECT(sluicepod_bundle_report(BYTES("\0\0\0\0\10\0\0\0z"), RESULT), SLUICEPOD_NOT_A_BUNDLE, "", 0);
    /* a count of 2^32 - 1, which no multiplication may wrap */
    EXPECT(sluicepod_bundle_count(BYTES("\377\377\377\377\4\0\0\0"), RESULT), SLUICEPOD_NOT_A_BUNDLE, "", 0);
    /* 7 */
    EXPECT(sluicepod_bundle_report(BYTES("\3\0\0\0\24\0\0\0>\0\0\0^\0\0\0^\0\0\0"
                                         "t\n\nSIGNED-OFF-BY: a\nacked-by : b\nFixes: 1\n"
                                         "t\n\n(cherry picked from commit 1)"),
                                   RESULT),
           SLUICEPOD_OK, "", 8, 1, 0, 0, 1, 0, 0, 1, 2);
}

static void bundles_limit(void) {
    size_t len = SLUICEPOD_LIMIT;
    uint8_t *input = malloc(len + 1);
    if (input == NULL)
        exit(2);
    memset(input, 'x', len + 1);
    /* 1 for an input, before 2; 1 for the result, before 3 */
    EXPECT(sluicepod_write_bundle(input, len + 1, RANGES(1, 0), OUT, RESULT), SLUICEPOD_TOO_LONG, "", 0);
    EXPECT(sluicepod_write_bundle(input, len, RANGES(0, len), OUT, RESULT), SLUICEPOD_TOO_LONG, "", 0);
    EXPECT(sluicepod_write_bundle(input, len, RANGES(12, len), OUT, RESULT), SLUICEPOD_NO_ROOM, "", 1, len);
    EXPECT(sluicepod_bundle_count(input, len + 1, RESULT), SLUICEPOD_TOO_LONG, "", 0);
    EXPECT(sluicepod_bundle_count(input, len, RESULT), SLUICEPOD_NOT_A_BUNDLE, "", 0);
    EXPECT(sluicepod_bundle_message(input, len + 1, 0, RESULT), SLUICEPOD_TOO_LONG, "", 0);
    EXPECT(sluicepod_bundle_message(input, len, 0, RESULT), SLUICEPOD_NOT_A_BUNDLE, "", 0);
    EXPECT(sluicepod_bundle_report(input, len + 1, RESULT), SLUICEPOD_TOO_LONG, "", 0);
    EXPECT(sluicepod_bundle_report(input, len, RESULT), SLUICEPOD_NOT_A_BUNDLE, "", 0);
    free(input);
    for (size_t n = 0; n < SLUICEPOD_RESULT_LEN; n++) {
        EXPECT_NOTHING_WRITTEN(sluicepod_write_bundle(BYTES("ab"), RANGES(0, 2), OUT, result, n), SLUICEPOD_SHORT_RESULT);
        EXPECT_NOTHING_WRITTEN(sluicepod_bundle_count(BYTES(THREE), result, n), SLUICEPOD_SHORT_RESULT);
        EXPECT_NOTHING_WRITTEN(sluicepod_bundle_message(BYTES(THREE), 0, result, n), SLUICEPOD_SHORT_RESULT);
        EXPECT_NOTHING_WRITTEN(sluicepod_bundle_report(BYTES(THREE), result, n), SLUICEPOD_SHORT_RESULT);
    }
}

static void bundles(void) {
    bundles_written();
    bundles_read();
    bundles_limit();
}
