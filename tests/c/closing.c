/* The closing note: document 02's examples K10.1 to K10.6, generated notes with every defect beside a plain reading, and the
 * refusals. test.c includes this file. */

/* Both calls of a message: a note, and whether 5 received records let the unit erase. */
#define EXPECT_NOTE(message, reading, start, end, records, complete, yes)                                              \
    do {                                                                                                               \
        EXPECT(sluicepod_closing_note(BYTES(message), reading, RESULT), SLUICEPOD_OK, "", 4, start, end, records, complete); \
        EXPECT(sluicepod_may_erase(BYTES(message), reading, 5, RESULT), SLUICEPOD_OK, "", 1, yes);                     \
    } while (0)

#define EXPECT_NO_NOTE(message, reading, code, field)                                                                  \
    do {                                                                                                               \
        EXPECT(sluicepod_closing_note(BYTES(message), reading, RESULT), code, "", 1, field);                           \
        EXPECT(sluicepod_may_erase(BYTES(message), reading, 5, RESULT), code, "", 1, field);                           \
    } while (0)

static void notes(void) {
    /* K10.1 and K10.2 */
    EXPECT_NOTE("t\n\nVehicle: 7\nRecords: 5\nOffload-state: complete\n", SLUICEPOD_WHOLE, 12, 13, 5, 1, 1);
    EXPECT(sluicepod_may_erase(BYTES("t\n\nVehicle: 7\nRecords: 5\nOffload-state: complete\n"), SLUICEPOD_WHOLE, 4, RESULT), SLUICEPOD_OK, "", 1, 0);
    /* K10.3 and K10.4 */
    EXPECT_NO_NOTE("t\n\nVehicle: 7\nVehicle: 7\nOffload-state: x", SLUICEPOD_WHOLE, SLUICEPOD_MISSING, SLUICEPOD_RECORDS);
    EXPECT_NO_NOTE("t\n\nVehicle: x\nRecords: 1\nRecords: 2\nOffload-state: complete", SLUICEPOD_WHOLE, SLUICEPOD_REPEATED, SLUICEPOD_RECORDS);
    /* K10.5 and K10.6 */
    EXPECT_NO_NOTE("t\n\nVehicle: 7\nRecords: 5\nOffload-state: complete\n---\ndiff\n", SLUICEPOD_WHOLE, SLUICEPOD_MISSING, SLUICEPOD_VEHICLE);
    EXPECT_NOTE("t\n\nVehicle: 7\nRecords: 5\nOffload-state: complete\n---\ndiff\n", SLUICEPOD_ABOVE_DIVIDER, 12, 13, 5, 1, 1);
    /* a partial one; the most records; a folded vehicle; names in any case and order */
    EXPECT_NOTE("t\n\nVehicle: 7\nRecords: 5\nOffload-state: partial\n", SLUICEPOD_WHOLE, 12, 13, 5, 0, 0);
    EXPECT_NOTE("t\n\nOFFLOAD-STATE: complete\nA: b\nrecords: 1000000\nvehicle:\n 000042\n", SLUICEPOD_WHOLE, 59, 65, 1000000, 1, 0);
}

/* A field of a generated note, with what document 02 says of it. */
struct field {
    const char *text; /* its lines */
    int count;        /* how many trailers have its name */
    int good;         /* whether there is one, with a good content */
};

static const struct field vehicles[] = {
    {"Vehicle: 31\n", 1, 1}, {"vehicle :\n 000042\n", 1, 1}, {"", 0, 0}, {"Vehicle: 31\nVEHICLE: 31\n", 2, 0},
    {"Vehicle: 1234567\n", 1, 0}, {"Vehicle:\n", 1, 0}, {"Vehicle: 3 1\n", 1, 0}, {"Vehicle: 3\n 1\n", 1, 0}, {"Vehicles: 31\n", 0, 0},
};
static const struct field counts[] = {
    {"Records: 207\n", 1, 1}, {"RECORDS:\n 207\n", 1, 1}, {"", 0, 0}, {"Records: 207\nA: b\nRecords: 207\n", 2, 0},
    {"Records: 0207\n", 1, 0}, {"Records: 207.\n", 1, 0}, {"Records: 20\n 7\n", 1, 0}, {"Records: 18446744073709551823\n", 1, 0},
    {"Records: 1000001\n", 1, 0}, {"Records: -207\n", 1, 0},
};
static const struct field states[] = {
    {"Offload-state: complete\n", 1, 1}, {"offload-state:\n complete\n", 1, 1}, {"", 0, 0},
    {"Offload-state: complete\nOffload-state: complete\n", 2, 0}, {"Offload-state: Complete\n", 1, 0},
    {"Offload-state: completed\n", 1, 0}, {"Offload-state: comp\n lete\n", 1, 0}, {"Offload-state: incomplete\n", 1, 0},
};

/* The code and the field of the first refusal, by document 02's order; SLUICEPOD_OK where there is none. */
static uint32_t first_refusal(const struct field *const three[3], size_t *field) {
    for (*field = 0; *field < 3; ++*field)
        if (three[*field]->count == 0)
            return SLUICEPOD_MISSING;
    for (*field = 0; *field < 3; ++*field)
        if (three[*field]->count > 1)
            return SLUICEPOD_REPEATED;
    for (*field = 0; *field < 3; ++*field)
        if (!three[*field]->good)
            return SLUICEPOD_BAD_CONTENT;
    return SLUICEPOD_OK;
}

static void generated(void) {
    for (size_t v = 0; v < sizeof vehicles / sizeof vehicles[0]; v++)
        for (size_t c = 0; c < sizeof counts / sizeof counts[0]; c++)
            for (size_t s = 0; s < sizeof states / sizeof states[0]; s++)
                for (int turned = 0; turned < 2; turned++) {
                    const struct field *const three[3] = {&vehicles[v], &counts[c], &states[s]};
                    char message[256];
                    int len = snprintf(message, sizeof message, "t\n\nVehicle: 99\nRecords: 207\n\nX-note: a\n%s%s%s",
                                       three[turned ? 2 : 0]->text, three[1]->text, three[turned ? 0 : 2]->text);
                    size_t field;
                    uint32_t want = first_refusal(three, &field);
                    reset();
                    uint32_t got = sluicepod_may_erase((const uint8_t *)message, (size_t)len, SLUICEPOD_WHOLE, 207, RESULT);
                    size_t value = want == SLUICEPOD_OK ? 1 : field;
                    check(__LINE__, message, got, got == want && result[0] == 1 && result[1] == value);
                    reset();
                    got = sluicepod_may_erase((const uint8_t *)message, (size_t)len, SLUICEPOD_WHOLE, 206, RESULT);
                    value = want == SLUICEPOD_OK ? 0 : field;
                    check(__LINE__, message, got, got == want && result[0] == 1 && result[1] == value);
                }
}

static void closing(void) {
    notes();
    generated();
    /* the limit judges the message uncut; no reading; a short result */
    size_t len = SLUICEPOD_LIMIT;
    uint8_t *input = malloc(len + 1);
    if (input == NULL)
        abort();
    memset(input, 'x', len + 1);
    memcpy(input, "t\n\nVehicle: 7\nRecords: 5\nOffload-state: complete\n---\n", 53);
    EXPECT(sluicepod_may_erase(input, len, SLUICEPOD_ABOVE_DIVIDER, 5, RESULT), SLUICEPOD_OK, "", 1, 1);
    EXPECT(sluicepod_may_erase(input, len + 1, SLUICEPOD_ABOVE_DIVIDER, 5, RESULT), SLUICEPOD_TOO_LONG, "", 0);
    EXPECT(sluicepod_closing_note(input, len, SLUICEPOD_ABOVE_DIVIDER, RESULT), SLUICEPOD_OK, "", 4, 12, 13, 5, 1);
    EXPECT(sluicepod_closing_note(input, len + 1, SLUICEPOD_ABOVE_DIVIDER, RESULT), SLUICEPOD_TOO_LONG, "", 0);
    EXPECT(sluicepod_closing_note(input, len + 1, 2, RESULT), SLUICEPOD_NO_READING, "", 0);
    EXPECT(sluicepod_may_erase(input, len + 1, 2, 5, RESULT), SLUICEPOD_NO_READING, "", 0);
    EXPECT_NOTHING_WRITTEN(sluicepod_closing_note(input, len + 1, 2, result, SLUICEPOD_RESULT_LEN - 1), SLUICEPOD_SHORT_RESULT);
    EXPECT_NOTHING_WRITTEN(sluicepod_may_erase(input, len + 1, 2, 5, result, SLUICEPOD_RESULT_LEN - 1), SLUICEPOD_SHORT_RESULT);
    free(input);
}
