/* Document 02's K13, through the archive: its worked examples by their numbers, and the refusals. Included by test.c. */
#define FORTY "0123456789abcdef0123456789abcdef01234567"
#define SIXTY_FOUR "0123456789abcdef0123456789abcdef0123456789abcdef0123456789abcdef"

static void commits(void) {
    /* 1 to 3, and the message */
    EXPECT(sluicepod_header_line(BYTES("tree " FORTY "\nauthor \ncommitter \n\n"), 2, RESULT), SLUICEPOD_OK, "", 4, 54, 63, 64, 64);
    EXPECT(sluicepod_commit_message(BYTES("tree " FORTY "\nauthor \ncommitter \n\n"), RESULT), SLUICEPOD_OK, "", 2, 66, 66);
    EXPECT(sluicepod_header_line(BYTES("tree " FORTY "\nauthor \ncommitter \ngpgsig a\n \n  b\n\nm"), 3, RESULT), SLUICEPOD_OK, "", 4, 65, 71, 72, 79);
    EXPECT(sluicepod_header_line(BYTES("tree " FORTY "\nauthor \ncommitter \ngpgsig a\n \n  b\n\nm"), 4, RESULT), SLUICEPOD_OK, "", 0);
    EXPECT(sluicepod_header_line(BYTES("tree " FORTY "\nauthor \ncommitter \ngpgsig a\n \n  b\n\nm"), (size_t)-1, RESULT), SLUICEPOD_OK, "", 0);
    EXPECT(sluicepod_commit_message(BYTES("tree " FORTY "\nauthor \ncommitter \ngpgsig a\n \n  b\n\nm"), RESULT), SLUICEPOD_OK, "", 2, 81, 82);
    /* 4 to 8 */
    EXPECT(sluicepod_header_line(BYTES("tree " FORTY "\nauthor \ncommitter \nx\n\nm"), 0, RESULT), SLUICEPOD_BAD_HEADER, "", 1, 3);
    EXPECT(sluicepod_header_line(BYTES("tree " FORTY "\nparent " SIXTY_FOUR "\nauthor \ncommitter \n\n"), 0, RESULT), SLUICEPOD_BAD_HEADER, "", 1, 1);
    EXPECT(sluicepod_header_line(BYTES("tree " FORTY "\nauthor \ncommitter \n"), 0, RESULT), SLUICEPOD_BAD_HEADER, "", 1, 3);
    EXPECT(sluicepod_header_line(BYTES("tree " FORTY "\nauthor \ncommitter \nx y"), 0, RESULT), SLUICEPOD_BAD_HEADER, "", 1, 3);
    EXPECT(sluicepod_commit_message(BYTES("tree " FORTY "\nauthor \ncommitter \nx y\n z\nq\n\n"), RESULT), SLUICEPOD_BAD_HEADER, "", 1, 4);
    /* 1 before 13; a result that is too short before both */
    static uint8_t much[SLUICEPOD_LIMIT + 1];
    EXPECT(sluicepod_header_line(much, sizeof much, 0, RESULT), SLUICEPOD_TOO_LONG, "", 0);
    EXPECT(sluicepod_header_line(much, sizeof much - 1, 0, RESULT), SLUICEPOD_BAD_HEADER, "", 1, 0);
    EXPECT(sluicepod_commit_message(much, sizeof much, RESULT), SLUICEPOD_TOO_LONG, "", 0);
    EXPECT(sluicepod_commit_message(much, sizeof much - 1, RESULT), SLUICEPOD_BAD_HEADER, "", 1, 0);
    EXPECT_NOTHING_WRITTEN(sluicepod_header_line(BYTES(""), 0, result, SLUICEPOD_RESULT_LEN - 1), SLUICEPOD_SHORT_RESULT);
    EXPECT_NOTHING_WRITTEN(sluicepod_commit_message(BYTES(""), result, SLUICEPOD_RESULT_LEN - 1), SLUICEPOD_SHORT_RESULT);
}
