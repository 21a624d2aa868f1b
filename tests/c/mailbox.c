/* Document 02's examples of the mailbox, K14.1 to K14.8, the limit, and a short result. A part of test.c. */
static void mailboxes(void) {
    EXPECT(sluicepod_mailbox(BYTES(" (x) <a@b>"), RESULT), SLUICEPOD_OK, "", 4, 5, 5, 6, 9);
    EXPECT(sluicepod_mailbox(BYTES("(c) \"A \\\" B\"(d)C (e) <(f) a (g)@ b\t> (h)"), RESULT), SLUICEPOD_OK, "", 4, 4, 16, 26, 34);
    EXPECT(sluicepod_mailbox(BYTES("A\"B\"C<a@b>"), RESULT), SLUICEPOD_OK, "", 4, 0, 5, 6, 9);
    EXPECT(sluicepod_mailbox(BYTES("A. B <a@b>"), RESULT), SLUICEPOD_NOT_A_MAILBOX, "", 1, 1);
    EXPECT(sluicepod_mailbox(BYTES("\"A <a@b>"), RESULT), SLUICEPOD_NOT_A_MAILBOX, "", 1, 8);
    EXPECT(sluicepod_mailbox(BYTES("(((((((((x)))))))))<a@b>"), RESULT), SLUICEPOD_NINTH_COMMENT, "", 1, 8);
    EXPECT(sluicepod_mailbox(BYTES("\"\\\x7f\" <a@b>"), RESULT), SLUICEPOD_NOT_A_MAILBOX, "", 1, 2);
    EXPECT(sluicepod_mailbox(BYTES("A <a..b@c>"), RESULT), SLUICEPOD_NOT_A_MAILBOX, "", 1, 5);
    EXPECT(sluicepod_mailbox(BYTES(""), RESULT), SLUICEPOD_NOT_A_MAILBOX, "", 1, 0);

    size_t len = SLUICEPOD_LIMIT;
    uint8_t *value = malloc(len + 1);
    if (value == NULL)
        abort();
    memset(value, ' ', len + 1);
    memcpy(value + len - 5, "<a@b>", 5);
    EXPECT(sluicepod_mailbox(value, len, RESULT), SLUICEPOD_OK, "", 4, len - 5, len - 5, len - 4, len - 1);
    EXPECT(sluicepod_mailbox(value, len + 1, RESULT), SLUICEPOD_TOO_LONG, "", 0);
    EXPECT_NOTHING_WRITTEN(sluicepod_mailbox(value, len + 1, result, SLUICEPOD_RESULT_LEN - 1), SLUICEPOD_SHORT_RESULT);
    free(value);
}
