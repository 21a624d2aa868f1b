/* The calls of include/sluicepod.h, through the archive: document 01's cases by their numbers, line ends, line
 * numbers, a walk, the refusals, commit objects, both readings of a message, and the closing note.
 * Each check gives a call, the code that it must return, what it must write to the front of `out`, and what to the front
 * of `result`: how many values there are, and the values. All behind that must be as it was. */
#include <stdio.h>
#include <stdlib.h>
#include <string.h>

#include "sluicepod.h"

#define BYTES(s) (const uint8_t *)(s), sizeof(s) - 1
#define OUT out, sizeof out
#define RESULT result, SLUICEPOD_RESULT_LEN

enum { ENTRIES = SLUICEPOD_RESULT_LEN + 2, KEPT_ENTRY = 77, KEPT_BYTE = '.' };

static uint8_t out[32];
static size_t result[ENTRIES];
static int checks, failures;

static void reset(void) {
    memset(out, KEPT_BYTE, sizeof out);
    for (int i = 0; i < ENTRIES; i++)
        result[i] = KEPT_ENTRY;
}

/* Whether `out` begins with the text, and `result` with the entries, and all behind them is as it was. */
static int is_left(const char *text, const size_t *entries, size_t count) {
    size_t len = strlen(text);
    if (memcmp(out, text, len) != 0)
        return 0;
    for (size_t i = len; i < sizeof out; i++)
        if (out[i] != KEPT_BYTE)
            return 0;
    for (size_t i = 0; i < ENTRIES; i++)
        if (result[i] != (i < count ? entries[i] : KEPT_ENTRY))
            return 0;
    return 1;
}

static void check(int line, const char *call, uint32_t code, int good) {
    checks++;
    if (good)
        return;
    failures++;
    printf("test.c:%d: %s: code %u, result", line, call, (unsigned)code);
    for (int i = 0; i < ENTRIES; i++)
        printf(" %zu", result[i]);
    printf(", out \"%.*s\"\n", (int)sizeof out, (const char *)out);
}

#define EXPECT(call, code, text, ...)                                                                                  \
    do {                                                                                                               \
        const size_t want[] = {__VA_ARGS__};                                                                           \
        reset();                                                                                                       \
        uint32_t got = call;                                                                                           \
        check(__LINE__, #call, got, got == code && is_left(text, want, sizeof want / sizeof want[0]));                 \
    } while (0)

#define EXPECT_NOTHING_WRITTEN(call, code)                                                                             \
    do {                                                                                                               \
        reset();                                                                                                       \
        uint32_t got = call;                                                                                           \
        check(__LINE__, #call, got, got == code && is_left("", NULL, 0));                                              \
    } while (0)

static void titles_and_summaries(void) {
    /* 1 to 3 */
    EXPECT(sluicepod_title_and_body(BYTES(""), RESULT), SLUICEPOD_OK, "", 1, 0);
    EXPECT(sluicepod_title_and_body(BYTES("a\r\n\r\n"), RESULT), SLUICEPOD_OK, "", 1, 1);
    EXPECT(sluicepod_title_and_body(BYTES("a\n\r\nb"), RESULT), SLUICEPOD_OK, "", 2, 1, 4);
    /* 4: the title's summary and the whole message's */
    EXPECT(sluicepod_title_and_body(BYTES("a\r\n\r\nb"), RESULT), SLUICEPOD_OK, "", 2, 1, 5);
    EXPECT(sluicepod_summary(BYTES("a"), OUT, RESULT), SLUICEPOD_OK, "", 3, 0, 0, 1);
    EXPECT(sluicepod_message_summary(BYTES("a\r\n\r\nb"), OUT, RESULT), SLUICEPOD_OK, "a  b", 3, 1, 0, 4);
    /* 5 */
    EXPECT(sluicepod_summary(BYTES("a \n  b"), OUT, RESULT), SLUICEPOD_OK, "a   b", 3, 1, 0, 5);
}

static void starts_and_blocks(void) {
    /* 6 */
    EXPECT(sluicepod_block_start(BYTES("x\r\n\r\nA: b"), RESULT), SLUICEPOD_OK, "", 2, 1, SLUICEPOD_NO_ENDING);
    EXPECT(sluicepod_next_block(BYTES("x\r\n\r\nA: b"), 0, 1, RESULT), SLUICEPOD_OK, "", 4, 5, 9, 9, 9);
    EXPECT(sluicepod_next_block(BYTES("x\r\n\r\nA: b"), 9, 9, RESULT), SLUICEPOD_OK, "", 2, 9, 9);
    /* 7 and 8 */
    EXPECT(sluicepod_block_start(BYTES("Signed-off-by: a\nx\ny\nz"), RESULT), SLUICEPOD_OK, "", 2, 0, SLUICEPOD_NO_ENDING);
    EXPECT(sluicepod_block_start(BYTES("Signed-off-by: a\nx\ny\nz\nw"), RESULT), SLUICEPOD_OK, "", 2, 24, SLUICEPOD_NO_ENDING);
    /* 9 to 11 */
    EXPECT(sluicepod_block_start(BYTES("Signed-off-by:a\nx"), RESULT), SLUICEPOD_OK, "", 2, 17, SLUICEPOD_NO_ENDING);
    EXPECT(sluicepod_block_start(BYTES("(cherry picked from commit 1)"), RESULT), SLUICEPOD_OK, "", 2, 0, SLUICEPOD_NO_ENDING);
    EXPECT(sluicepod_next_block(BYTES("(cherry picked from commit 1)"), 0, 0, RESULT), SLUICEPOD_OK, "", 4, 29, 29, 29, 29);
    EXPECT(sluicepod_block_start(BYTES(" c\nA: b"), RESULT), SLUICEPOD_OK, "", 2, 7, SLUICEPOD_NO_ENDING);
    /* 14: the first message is empty, the second is "x\n" */
    EXPECT(sluicepod_block_start(BYTES("A: b\nSigned-off-by: c\nx\nD: e\n"), RESULT), SLUICEPOD_OK, "", 2, 0, SLUICEPOD_LF);
    EXPECT(sluicepod_next_block(BYTES("A: b\nSigned-off-by: c\nx\nD: e\n"), 0, 0, RESULT), SLUICEPOD_OK, "", 4, 0, 22, 22, 22);
    EXPECT(sluicepod_next_block(BYTES("A: b\nSigned-off-by: c\nx\nD: e\n"), 22, 22, RESULT), SLUICEPOD_OK, "", 4, 24, 29, 29, 29);
    EXPECT(sluicepod_next_block(BYTES("A: b\nSigned-off-by: c\nx\nD: e\n"), 29, 29, RESULT), SLUICEPOD_OK, "", 2, 29, 29);
}

static void trailers(void) {
    /* 7: one trailer, then the end; 8 and 10: none */
    EXPECT(sluicepod_next_trailer(BYTES("Signed-off-by: a\nx\ny\nz"), 0, 1, SLUICEPOD_ALL, OUT, RESULT), SLUICEPOD_OK, "", 9, 0, 13, 0, 15, 16, 17, SLUICEPOD_LF, 1, 2);
    EXPECT(sluicepod_next_trailer(BYTES("Signed-off-by: a\nx\ny\nz"), 17, 2, SLUICEPOD_ALL, OUT, RESULT), SLUICEPOD_OK, "", 2, 22, 4);
    EXPECT(sluicepod_next_trailer(BYTES("Signed-off-by: a\nx\ny\nz\nw"), 24, 5, SLUICEPOD_ALL, OUT, RESULT), SLUICEPOD_OK, "", 2, 24, 5);
    EXPECT(sluicepod_next_trailer(BYTES("(cherry picked from commit 1)"), 0, 1, SLUICEPOD_ALL, OUT, RESULT), SLUICEPOD_OK, "", 2, 29, 1);
    /* 12: the vertical tab is no blank, so the value goes on */
    EXPECT(sluicepod_block_start(BYTES("A: b\n\t\v\n c"), RESULT), SLUICEPOD_OK, "", 2, 0, SLUICEPOD_NO_ENDING);
    EXPECT(sluicepod_next_trailer(BYTES("A: b\n\t\v\n c"), 0, 1, SLUICEPOD_ALL, OUT, RESULT), SLUICEPOD_OK, "b c", 9, 0, 1, 1, 0, 3, 10, SLUICEPOD_NO_ENDING, 1, 3);
    /* 13 */
    EXPECT(sluicepod_next_trailer(BYTES("Acked-by : A"), 0, 1, SLUICEPOD_ALL, OUT, RESULT), SLUICEPOD_OK, "", 9, 0, 8, 0, 11, 12, 12, SLUICEPOD_NO_ENDING, 1, 1);
    EXPECT(sluicepod_next_trailer(BYTES(":x"), 0, 1, SLUICEPOD_ALL, OUT, RESULT), SLUICEPOD_OK, "", 2, 2, 1);
    /* by kind, by name, in a message */
    EXPECT(sluicepod_next_trailer(BYTES("A: b\nSigned-off-by: c\nx\nD: e\n"), 0, 1, SLUICEPOD_AUTHOR, OUT, RESULT), SLUICEPOD_OK, "", 9, 5, 18, 0, 20, 21, 22, SLUICEPOD_LF, 2, 3);
    EXPECT(sluicepod_find_trailer(BYTES("A: b\nSigned-off-by: c\nx\nD: e\n"), BYTES("d"), OUT, RESULT), SLUICEPOD_OK, "", 7, 24, 25, 0, 27, 28, SLUICEPOD_LF, 4);
    EXPECT(sluicepod_find_trailer(BYTES("A: b\n\t\v\n c"), BYTES("a"), OUT, RESULT), SLUICEPOD_OK, "b c", 7, 0, 1, 1, 0, 3, SLUICEPOD_NO_ENDING, 1);
    EXPECT(sluicepod_find_trailer(BYTES("A: b"), BYTES(""), OUT, RESULT), SLUICEPOD_OK, "", 0);
    // K4: the last one speaks; the others write nothing and need no room.
    EXPECT(sluicepod_find_trailer(BYTES("Offload-state: partial\nOffload-state: complete\n"), BYTES("offload-state"), out, 0, RESULT),
           SLUICEPOD_OK, "", 7, 23, 36, 0, 38, 46, SLUICEPOD_LF, 2);
    EXPECT(sluicepod_find_trailer(BYTES("A: 1\n 2\nA: 3"), BYTES("A"), out, 0, RESULT), SLUICEPOD_OK, "", 7, 8, 9, 0, 11, 12, SLUICEPOD_NO_ENDING, 3);
    EXPECT(sluicepod_find_trailer(BYTES("A: 1\nA: 2\n 3\n"), BYTES("a"), out, 2, RESULT), SLUICEPOD_NO_ROOM, "", 1, 3);
    EXPECT(sluicepod_find_trailer(BYTES("A: 1\nA: 2\n 3\n"), BYTES("a"), out, 3, RESULT), SLUICEPOD_OK, "2 3", 7, 5, 6, 1, 0, 3, SLUICEPOD_LF, 2);
    EXPECT(sluicepod_message_trailers(BYTES("t\n\nx\n\nA: b"), RESULT), SLUICEPOD_OK, "", 2, 4, 3);
    EXPECT(sluicepod_message_trailers(BYTES("t\n\n"), RESULT), SLUICEPOD_OK, "", 2, 3, 3);
}

/* Document 02's examples of line ends, K2.3 to K2.6, and what is near them. */
static void endings(void) {
    /* K2.3: no block; K2.5: blank lines below; K2.6: no line */
    EXPECT(sluicepod_block_start(BYTES("x\r\n"), RESULT), SLUICEPOD_OK, "", 2, 3, SLUICEPOD_CR_LF);
    EXPECT(sluicepod_block_start(BYTES("A: b\r\n\n \n"), RESULT), SLUICEPOD_OK, "", 2, 0, SLUICEPOD_CR_LF);
    EXPECT(sluicepod_block_start(BYTES(""), RESULT), SLUICEPOD_OK, "", 2, 0, SLUICEPOD_NO_ENDING);
    /* blank lines alone; a CR alone; of two CRs one is text; a CR that is text; blank lines that end otherwise */
    EXPECT(sluicepod_block_start(BYTES("\r\n \r\n"), RESULT), SLUICEPOD_OK, "", 2, 5, SLUICEPOD_NO_ENDING);
    EXPECT(sluicepod_block_start(BYTES("x\r"), RESULT), SLUICEPOD_OK, "", 2, 2, SLUICEPOD_CR);
    EXPECT(sluicepod_block_start(BYTES("x\r\r\n"), RESULT), SLUICEPOD_OK, "", 2, 4, SLUICEPOD_CR_LF);
    EXPECT(sluicepod_block_start(BYTES("x\ry"), RESULT), SLUICEPOD_OK, "", 2, 3, SLUICEPOD_NO_ENDING);
    EXPECT(sluicepod_block_start(BYTES("A: b\n\r\n\r"), RESULT), SLUICEPOD_OK, "", 2, 0, SLUICEPOD_LF);
    /* K2.4, by the step and by name: the last folded line's, not the trailer line's; the other way round; a CR alone; a CR that is text */
    EXPECT(sluicepod_next_trailer(BYTES("A: b\r\n c\n"), 0, 1, SLUICEPOD_ALL, out, 9, RESULT), SLUICEPOD_OK, "b c", 9, 0, 1, 1, 0, 3, 9, SLUICEPOD_LF, 1, 3);
    EXPECT(sluicepod_find_trailer(BYTES("A: b\r\n c\n"), BYTES("a"), OUT, RESULT), SLUICEPOD_OK, "b c", 7, 0, 1, 1, 0, 3, SLUICEPOD_LF, 1);
    EXPECT(sluicepod_next_trailer(BYTES("A: b\n c\r\nD: e"), 0, 1, SLUICEPOD_ALL, OUT, RESULT), SLUICEPOD_OK, "b c", 9, 0, 1, 1, 0, 3, 9, SLUICEPOD_CR_LF, 1, 3);
    EXPECT(sluicepod_next_trailer(BYTES("A: b\r"), 0, 1, SLUICEPOD_ALL, OUT, RESULT), SLUICEPOD_OK, "", 9, 0, 1, 0, 3, 4, 5, SLUICEPOD_CR, 1, 1);
    EXPECT(sluicepod_find_trailer(BYTES("A: b\r"), BYTES("A"), OUT, RESULT), SLUICEPOD_OK, "", 7, 0, 1, 0, 3, 4, SLUICEPOD_CR, 1);
    EXPECT(sluicepod_next_trailer(BYTES("A: b\rc"), 0, 1, SLUICEPOD_ALL, OUT, RESULT), SLUICEPOD_OK, "", 9, 0, 1, 0, 3, 6, 6, SLUICEPOD_NO_ENDING, 1, 1);
}

/* Line numbers: document 02's examples K8.1 to K8.3 and K8.5, and what is near them. */
static void line_numbers(void) {
    /* K8.1, by steps: the message's walk begins with the title's LFs behind it */
    EXPECT(sluicepod_message_trailers(BYTES("t\n\nA: b\nB: c"), RESULT), SLUICEPOD_OK, "", 2, 3, 3);
    EXPECT(sluicepod_next_trailer(BYTES("t\n\nA: b\nB: c"), 3, 3, SLUICEPOD_ALL, out, 0, RESULT), SLUICEPOD_OK, "", 9, 3, 4, 0, 6, 7, 8, SLUICEPOD_LF, 3, 4);
    EXPECT(sluicepod_next_trailer(BYTES("t\n\nA: b\nB: c"), 8, 4, SLUICEPOD_ALL, out, 0, RESULT), SLUICEPOD_OK, "", 9, 8, 9, 0, 11, 12, 12, SLUICEPOD_NO_ENDING, 4, 4);
    /* K8.2 */
    EXPECT(sluicepod_next_trailer(BYTES("A: b"), 0, 1, SLUICEPOD_ALL, out, 9, RESULT), SLUICEPOD_OK, "", 9, 0, 1, 0, 3, 4, 4, SLUICEPOD_NO_ENDING, 1, 1);
    /* K8.3, by steps */
    EXPECT(sluicepod_next_trailer(BYTES("\nA: b\n c\n d\nB: e"), 0, 1, SLUICEPOD_ALL, out, 5, RESULT), SLUICEPOD_OK, "b c d", 9, 1, 2, 1, 0, 5, 12, SLUICEPOD_LF, 2, 5);
    EXPECT(sluicepod_next_trailer(BYTES("\nA: b\n c\n d\nB: e"), 12, 5, SLUICEPOD_ALL, out, 0, RESULT), SLUICEPOD_OK, "", 9, 12, 13, 0, 15, 16, 16, SLUICEPOD_NO_ENDING, 5, 5);
    /* K8.5 */
    EXPECT(sluicepod_find_trailer(BYTES("A: 1\nB: 2\nA: 3"), BYTES("a"), out, 0, RESULT), SLUICEPOD_OK, "", 7, 10, 11, 0, 13, 14, SLUICEPOD_NO_ENDING, 3);
    /* a message: the title's two lines count, and so does the blank line above the block, where the block starts */
    EXPECT(sluicepod_message_trailers(BYTES("t\nu\n\nx\n\nA: b\nC: d\n"), RESULT), SLUICEPOD_OK, "", 2, 6, 4);
    EXPECT(sluicepod_next_trailer(BYTES("t\nu\n\nx\n\nA: b\nC: d\n"), 6, 4, SLUICEPOD_ALL, OUT, RESULT), SLUICEPOD_OK, "", 9, 8, 9, 0, 11, 12, 13, SLUICEPOD_LF, 6, 7);
    EXPECT(sluicepod_next_trailer(BYTES("t\nu\n\nx\n\nA: b\nC: d\n"), 13, 7, SLUICEPOD_ALL, OUT, RESULT), SLUICEPOD_OK, "", 9, 13, 14, 0, 16, 17, 18, SLUICEPOD_LF, 7, 8);
    /* the end's number: that of the line which would come next; where the last line has no LF, its own */
    EXPECT(sluicepod_next_trailer(BYTES("t\nu\n\nx\n\nA: b\nC: d\n"), 18, 8, SLUICEPOD_ALL, OUT, RESULT), SLUICEPOD_OK, "", 2, 18, 8);
    EXPECT(sluicepod_next_trailer(BYTES("A: b\nx"), 5, 2, SLUICEPOD_ALL, OUT, RESULT), SLUICEPOD_OK, "", 2, 6, 2);
    /* a message without a body, and one without a block: the number of its end */
    EXPECT(sluicepod_message_trailers(BYTES("t\nu\n"), RESULT), SLUICEPOD_OK, "", 2, 4, 3);
    EXPECT(sluicepod_message_trailers(BYTES("t\n\nx\ny"), RESULT), SLUICEPOD_OK, "", 2, 6, 4);
    EXPECT(sluicepod_message_trailers(BYTES(""), RESULT), SLUICEPOD_OK, "", 2, 0, 1);
    /* the message's body, bare: counted from its first line */
    EXPECT(sluicepod_body_trailers(BYTES("x\n\nA: b\nC: d\n"), RESULT), SLUICEPOD_OK, "", 2, 1, 1);
    EXPECT(sluicepod_next_trailer(BYTES("x\n\nA: b\nC: d\n"), 1, 1, SLUICEPOD_ALL, OUT, RESULT), SLUICEPOD_OK, "", 9, 3, 4, 0, 6, 7, 8, SLUICEPOD_LF, 3, 4);
    EXPECT(sluicepod_find_trailer(BYTES("x\n\nA: b\nC: d\n"), BYTES("c"), OUT, RESULT), SLUICEPOD_OK, "", 7, 8, 9, 0, 11, 12, SLUICEPOD_LF, 4);
    EXPECT(sluicepod_body_trailers(BYTES("x\ny\n"), RESULT), SLUICEPOD_OK, "", 2, 4, 3);
    EXPECT(sluicepod_body_trailers(BYTES(""), RESULT), SLUICEPOD_OK, "", 2, 0, 1);
    /* folded lines count, and so do lines that are passed over */
    EXPECT(sluicepod_next_trailer(BYTES("A: b\n c\n d\nE: f"), 0, 1, SLUICEPOD_ALL, OUT, RESULT), SLUICEPOD_OK, "b c d", 9, 0, 1, 1, 0, 5, 11, SLUICEPOD_LF, 1, 4);
    EXPECT(sluicepod_next_trailer(BYTES("A: b\n c\n d\nE: f"), 11, 4, SLUICEPOD_ALL, OUT, RESULT), SLUICEPOD_OK, "", 9, 11, 12, 0, 14, 15, 15, SLUICEPOD_NO_ENDING, 4, 4);
    EXPECT(sluicepod_find_trailer(BYTES("A: b\n c\n d\nE: f"), BYTES("E"), OUT, RESULT), SLUICEPOD_OK, "", 7, 11, 12, 0, 14, 15, SLUICEPOD_NO_ENDING, 4);
    EXPECT(sluicepod_next_trailer(BYTES("A: b\n c\nx\nAcked-by: d"), 0, 1, SLUICEPOD_ACKED_BY, OUT, RESULT), SLUICEPOD_OK, "", 9, 10, 18, 0, 20, 21, 21, SLUICEPOD_NO_ENDING, 4, 4);
    /* a CR alone ends no line, with its LF it ends one */
    EXPECT(sluicepod_cursor_at(BYTES("a\rb\r\nc\r"), 7, RESULT), SLUICEPOD_OK, "", 2, 7, 2);
    EXPECT(sluicepod_next_trailer(BYTES("A: b\rc\r\nD: e\r"), 0, 1, SLUICEPOD_ALL, OUT, RESULT), SLUICEPOD_OK, "", 9, 0, 1, 0, 3, 6, 8, SLUICEPOD_CR_LF, 1, 2);
    EXPECT(sluicepod_next_trailer(BYTES("A: b\rc\r\nD: e\r"), 8, 2, SLUICEPOD_ALL, OUT, RESULT), SLUICEPOD_OK, "", 9, 8, 9, 0, 11, 12, 13, SLUICEPOD_CR, 2, 2);
    /* the cursor of a place: a line's start, its middle, its LF, the end, past it */
    EXPECT(sluicepod_cursor_at(BYTES("ab\ncd\n"), 0, RESULT), SLUICEPOD_OK, "", 2, 0, 1);
    EXPECT(sluicepod_cursor_at(BYTES("ab\ncd\n"), 2, RESULT), SLUICEPOD_OK, "", 2, 2, 1);
    EXPECT(sluicepod_cursor_at(BYTES("ab\ncd\n"), 3, RESULT), SLUICEPOD_OK, "", 2, 3, 2);
    EXPECT(sluicepod_cursor_at(BYTES("ab\ncd\n"), 4, RESULT), SLUICEPOD_OK, "", 2, 4, 2);
    EXPECT(sluicepod_cursor_at(BYTES("ab\ncd\n"), 6, RESULT), SLUICEPOD_OK, "", 2, 6, 3);
    EXPECT(sluicepod_cursor_at(BYTES("ab\ncd\n"), 7, RESULT), SLUICEPOD_BAD_PLACE, "", 0);
    EXPECT(sluicepod_cursor_at(BYTES("ab\ncd\n"), SIZE_MAX, RESULT), SLUICEPOD_BAD_PLACE, "", 0);
    EXPECT(sluicepod_cursor_at(BYTES(""), 0, RESULT), SLUICEPOD_OK, "", 2, 0, 1);
    /* numbers that cannot be the position's: 0, and one more than all bytes before it could make; the folded value would be written */
    EXPECT(sluicepod_next_trailer(BYTES("A: b\n c"), 0, 0, SLUICEPOD_ALL, OUT, RESULT), SLUICEPOD_BAD_PLACE, "", 0);
    EXPECT(sluicepod_next_trailer(BYTES("A: b\n c"), 0, 2, SLUICEPOD_ALL, OUT, RESULT), SLUICEPOD_BAD_PLACE, "", 0);
    EXPECT(sluicepod_next_trailer(BYTES("x\nA: b\n c"), 2, 4, SLUICEPOD_ALL, OUT, RESULT), SLUICEPOD_BAD_PLACE, "", 0);
    EXPECT(sluicepod_next_trailer(BYTES("x\nA: b\n c"), 2, SIZE_MAX, SLUICEPOD_ALL, OUT, RESULT), SLUICEPOD_BAD_PLACE, "", 0);
    EXPECT(sluicepod_next_trailer(BYTES("A: b"), 5, 1, SLUICEPOD_ALL, OUT, RESULT), SLUICEPOD_BAD_PLACE, "", 0);
    /* one that could be, and is not, is counted on from */
    EXPECT(sluicepod_next_trailer(BYTES("x\nA: b\n c"), 2, 3, SLUICEPOD_ALL, OUT, RESULT), SLUICEPOD_OK, "b c", 9, 2, 3, 1, 0, 3, 9, SLUICEPOD_NO_ENDING, 3, 4);
    EXPECT(sluicepod_next_trailer(BYTES("x\nA: b\n c"), 2, 1, SLUICEPOD_ALL, OUT, RESULT), SLUICEPOD_OK, "b c", 9, 2, 3, 1, 0, 3, 9, SLUICEPOD_NO_ENDING, 1, 2);
}

/* The lister's example, walked as a caller walks: each trailer as its line's number and `token: value`. */
static void walk(void) {
    static const char message[] = "t\n\nx\n\nVehicle: 7\nRecords: 318,\n 22 late\n";
    const uint8_t *input = (const uint8_t *)message;
    size_t len = sizeof message - 1;
    char listed[64] = "";
    size_t used = 0;
    reset();
    uint32_t code = sluicepod_message_trailers(input, len, RESULT);
    size_t at = result[1], line = result[2];
    while (code == SLUICEPOD_OK) {
        code = sluicepod_next_trailer(input, len, at, line, SLUICEPOD_ALL, OUT, RESULT);
        if (code != SLUICEPOD_OK || result[0] == 2)
            break;
        const uint8_t *holds = result[3] == 0 ? input : out;
        used += (size_t)snprintf(listed + used, sizeof listed - used, "%zu %.*s: %.*s\n", result[8],
                                 (int)(result[2] - result[1]), message + result[1], (int)(result[5] - result[4]),
                                 (const char *)holds + result[4]);
        at = result[6];
        line = result[9];
    }
    check(__LINE__, listed, code,
          code == SLUICEPOD_OK && result[1] == len && result[2] == 8 &&
              strcmp(listed, "5 Vehicle: 7\n6 Records: 318, 22 late\n") == 0);
}

/* The kinds by their numbers: for each token, which of the nine questions is answered with yes. */
static void kinds(void) {
    static const struct {
        const char *token;
        const char *answers;
    } table[] = {
        {"x", "100000000"},           {"signed-off-by", "110000011"}, {"Co-Authored-By", "101000011"},
        {"Assisted-by", "100100010"}, {"Acked-by", "100010010"},      {"Reviewed-by", "100001010"},
        {"TESTED-BY", "100000110"},
    };
    for (size_t i = 0; i < sizeof table / sizeof table[0]; i++)
        for (uint32_t kind = 0; kind <= SLUICEPOD_AUTHOR; kind++) {
            const uint8_t *token = (const uint8_t *)table[i].token;
            size_t len = strlen(table[i].token);
            EXPECT(sluicepod_is_of_kind(token, len, 0, len, kind, RESULT), SLUICEPOD_OK, "", 1, (size_t)(table[i].answers[kind] - '0'));
        }
}

static void places_and_room(void) {
    EXPECT(sluicepod_next_trailer(BYTES("A: b"), 5, 1, SLUICEPOD_ALL, OUT, RESULT), SLUICEPOD_BAD_PLACE, "", 0);
    EXPECT(sluicepod_next_block(BYTES("A: b"), 5, 0, RESULT), SLUICEPOD_BAD_PLACE, "", 0);
    EXPECT(sluicepod_next_block(BYTES("A: b"), 0, 5, RESULT), SLUICEPOD_BAD_PLACE, "", 0);
    EXPECT(sluicepod_is_of_kind(BYTES("A: b"), 0, 5, SLUICEPOD_ALL, RESULT), SLUICEPOD_BAD_PLACE, "", 0);
    EXPECT(sluicepod_is_of_kind(BYTES("A: b"), 2, 1, SLUICEPOD_ALL, RESULT), SLUICEPOD_BAD_PLACE, "", 0);
    /* one byte short, and exactly full */
    EXPECT(sluicepod_summary(BYTES("a \n  b"), out, 4, RESULT), SLUICEPOD_NO_ROOM, "", 1, 5);
    EXPECT(sluicepod_summary(BYTES("a \n  b"), out, 5, RESULT), SLUICEPOD_OK, "a   b", 3, 1, 0, 5);
    EXPECT(sluicepod_message_summary(BYTES("a\nb"), out, 0, RESULT), SLUICEPOD_NO_ROOM, "", 1, 3);
    EXPECT(sluicepod_next_trailer(BYTES("A: b\n c"), 0, 1, SLUICEPOD_ALL, out, 2, RESULT), SLUICEPOD_NO_ROOM, "", 1, 3);
    EXPECT(sluicepod_next_trailer(BYTES("A: b\n c"), 0, 1, SLUICEPOD_ALL, out, 3, RESULT), SLUICEPOD_OK, "b c", 9, 0, 1, 1, 0, 3, 7, SLUICEPOD_NO_ENDING, 1, 2);
    EXPECT(sluicepod_find_trailer(BYTES("A: b\n c"), BYTES("A"), out, 2, RESULT), SLUICEPOD_NO_ROOM, "", 1, 3);
    /* a part of the input needs no room */
    EXPECT(sluicepod_next_trailer(BYTES("A: b"), 0, 1, SLUICEPOD_ALL, out, 0, RESULT), SLUICEPOD_OK, "", 9, 0, 1, 0, 3, 4, 4, SLUICEPOD_NO_ENDING, 1, 1);
    /* no kind: before the place is looked at */
    EXPECT(sluicepod_next_trailer(BYTES("A: b\n c"), 8, 2, 9, OUT, RESULT), SLUICEPOD_NO_KIND, "", 0);
    EXPECT(sluicepod_is_of_kind(BYTES("A: b"), 0, 5, 9, RESULT), SLUICEPOD_NO_KIND, "", 0);
    EXPECT(sluicepod_is_of_kind(BYTES("A: b"), 0, 1, UINT32_MAX, RESULT), SLUICEPOD_NO_KIND, "", 0);
}

static void limit(void) {
    size_t len = SLUICEPOD_LIMIT;
    uint8_t *input = malloc(len + 1);
    if (input == NULL)
        exit(2);
    memset(input, 'x', len + 1);
    EXPECT(sluicepod_title_and_body(input, len, RESULT), SLUICEPOD_OK, "", 1, len);
    EXPECT(sluicepod_title_and_body(input, len + 1, RESULT), SLUICEPOD_TOO_LONG, "", 0);
    EXPECT(sluicepod_summary(input, len, OUT, RESULT), SLUICEPOD_OK, "", 3, 0, 0, len);
    EXPECT(sluicepod_summary(input, len + 1, OUT, RESULT), SLUICEPOD_TOO_LONG, "", 0);
    EXPECT(sluicepod_message_summary(input, len, OUT, RESULT), SLUICEPOD_OK, "", 3, 0, 0, len);
    EXPECT(sluicepod_message_summary(input, len + 1, OUT, RESULT), SLUICEPOD_TOO_LONG, "", 0);
    EXPECT(sluicepod_block_start(input, len, RESULT), SLUICEPOD_OK, "", 2, len, SLUICEPOD_NO_ENDING);
    EXPECT(sluicepod_block_start(input, len + 1, RESULT), SLUICEPOD_TOO_LONG, "", 0);
    EXPECT(sluicepod_message_trailers(input, len, RESULT), SLUICEPOD_OK, "", 2, len, (size_t)1);
    EXPECT(sluicepod_message_trailers(input, len + 1, RESULT), SLUICEPOD_TOO_LONG, "", 0);
    EXPECT(sluicepod_body_trailers(input, len, RESULT), SLUICEPOD_OK, "", 2, len, (size_t)1);
    EXPECT(sluicepod_body_trailers(input, len + 1, RESULT), SLUICEPOD_TOO_LONG, "", 0);
    EXPECT(sluicepod_cursor_at(input, len, len, RESULT), SLUICEPOD_OK, "", 2, len, (size_t)1);
    EXPECT(sluicepod_find_trailer(input, len, BYTES("A"), OUT, RESULT), SLUICEPOD_OK, "", 0);
    EXPECT(sluicepod_find_trailer(input, len + 1, BYTES("A"), OUT, RESULT), SLUICEPOD_TOO_LONG, "", 0);
    EXPECT(sluicepod_find_trailer(BYTES("A: b"), input, len, OUT, RESULT), SLUICEPOD_OK, "", 0);
    EXPECT(sluicepod_find_trailer(BYTES("A: b"), input, len + 1, OUT, RESULT), SLUICEPOD_TOO_LONG, "", 0);
    EXPECT(sluicepod_next_trailer(input, len, 0, 1, SLUICEPOD_ALL, OUT, RESULT), SLUICEPOD_OK, "", 2, len, (size_t)1);
    EXPECT(sluicepod_next_block(input, len, 0, 0, RESULT), SLUICEPOD_OK, "", 4, len, len, len, len);
    EXPECT(sluicepod_is_of_kind(input, len, 0, 1, SLUICEPOD_ALL, RESULT), SLUICEPOD_OK, "", 1, (size_t)1);
    /* before the place is looked at */
    EXPECT(sluicepod_next_trailer(input, len + 1, len + 2, 0, SLUICEPOD_ALL, OUT, RESULT), SLUICEPOD_TOO_LONG, "", 0);
    EXPECT(sluicepod_cursor_at(input, len + 1, len + 2, RESULT), SLUICEPOD_TOO_LONG, "", 0);
    EXPECT(sluicepod_next_block(input, len + 1, len + 2, 0, RESULT), SLUICEPOD_TOO_LONG, "", 0);
    EXPECT(sluicepod_is_of_kind(input, len + 1, 1, 0, SLUICEPOD_ALL, RESULT), SLUICEPOD_TOO_LONG, "", 0);
    /* a short result, before all else */
    EXPECT_NOTHING_WRITTEN(sluicepod_title_and_body(input, len + 1, result, SLUICEPOD_RESULT_LEN - 1), SLUICEPOD_SHORT_RESULT);
    free(input);
}

static void short_results(void) {
    for (size_t len = 0; len < SLUICEPOD_RESULT_LEN; len++) {
        EXPECT_NOTHING_WRITTEN(sluicepod_title_and_body(BYTES("a\n\nb"), result, len), SLUICEPOD_SHORT_RESULT);
        EXPECT_NOTHING_WRITTEN(sluicepod_summary(BYTES("a\nb"), OUT, result, len), SLUICEPOD_SHORT_RESULT);
        EXPECT_NOTHING_WRITTEN(sluicepod_message_summary(BYTES("a\nb"), OUT, result, len), SLUICEPOD_SHORT_RESULT);
        EXPECT_NOTHING_WRITTEN(sluicepod_block_start(BYTES("A: b"), result, len), SLUICEPOD_SHORT_RESULT);
        EXPECT_NOTHING_WRITTEN(sluicepod_message_trailers(BYTES("t\n\nA: b"), result, len), SLUICEPOD_SHORT_RESULT);
        EXPECT_NOTHING_WRITTEN(sluicepod_body_trailers(BYTES("A: b"), result, len), SLUICEPOD_SHORT_RESULT);
        EXPECT_NOTHING_WRITTEN(sluicepod_cursor_at(BYTES("A: b"), 0, result, len), SLUICEPOD_SHORT_RESULT);
        EXPECT_NOTHING_WRITTEN(sluicepod_next_trailer(BYTES("A: b\n c"), 0, 1, SLUICEPOD_ALL, OUT, result, len), SLUICEPOD_SHORT_RESULT);
        EXPECT_NOTHING_WRITTEN(sluicepod_next_trailer(BYTES("A: b\n c"), 0, 1, 9, OUT, result, len), SLUICEPOD_SHORT_RESULT);
        EXPECT_NOTHING_WRITTEN(sluicepod_find_trailer(BYTES("A: b\n c"), BYTES("A"), OUT, result, len), SLUICEPOD_SHORT_RESULT);
        EXPECT_NOTHING_WRITTEN(sluicepod_next_block(BYTES("A: b"), 0, 0, result, len), SLUICEPOD_SHORT_RESULT);
        EXPECT_NOTHING_WRITTEN(sluicepod_is_of_kind(BYTES("A: b"), 0, 1, SLUICEPOD_ALL, result, len), SLUICEPOD_SHORT_RESULT);
    }
}

#include "commits.h"
#include "mailbox.c"
#include "bundles.c"
#include "readings.c"
#include "closing.c"
#include "additions.c"
#include "lists.c"
#include "feet.c"

int main(void) {
    titles_and_summaries();
    starts_and_blocks();
    trailers();
    endings();
    line_numbers();
    walk();
    kinds();
    places_and_room();
    limit();
    short_results();
    commits();
    mailboxes();
    bundles();
    readings();
    closing();
    additions();
    lists();
    feet();
    printf("tests/c: %d checks, %d failed\n", checks, failures);
    return failures != 0;
}
