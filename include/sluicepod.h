/* Sluicepod: the trailers, blocks, title and summary of a commit message, and who signed it.
 *
 * Link libexports.a, which tests/archive makes for the machine at hand.
 *
 * Input. A message, title or body is lent as a pointer and its length in bytes. No input may be longer than
 * SLUICEPOD_LIMIT. It is only read, need not be UTF-8, and needs no terminating zero. A pointer must be good for the
 * length that goes with it, and never null, also where that is 0. What a call writes to must overlap nothing else that
 * the same call is lent. Positions, starts and ends are offsets in bytes from the front of the input; a part runs from
 * its start up to, and without, its end.
 *
 * Code. Each call returns a code:
 *     SLUICEPOD_OK             an answer; the end of a walk, "no body" and "no such trailer" are answers
 *     SLUICEPOD_TOO_LONG       an input is over the limit
 *     SLUICEPOD_BAD_PLACE      a position is past the input, a range does not fit in it, or a line's number cannot be that
 *                              of the position
 *     SLUICEPOD_NO_ROOM        `out` is shorter than what is to be written; the exact length needed is the one value
 *     SLUICEPOD_SHORT_TABLE    a table has fewer entries than records are to be listed; both counts are the values, and
 *                              so they are of the NO_ROOM of a listing
 *     SLUICEPOD_BAD_TOKEN      a token that is not letters, digits or hyphens, at least one
 *     SLUICEPOD_BAD_VALUE      a value that has an LF, or white space at an end
 *     SLUICEPOD_NOTHING_TO_STAND_ON
 *                              a message without a non-blank line, below which a trailer could stand
 *     SLUICEPOD_MORE_BYTES     the last bytes of a body do not settle its trailers
 *     SLUICEPOD_MISSING        no closing note: no trailer has a field's name; the field is the one value
 *     SLUICEPOD_REPEATED       no closing note: more than one trailer has a field's name; the field is the one value
 *     SLUICEPOD_BAD_CONTENT    no closing note: a field's content is not a good one; the field is the one value
 *     SLUICEPOD_NOT_A_BUNDLE   bytes that are no bundle, or more than SLUICEPOD_BUNDLE_MOST messages to write
 *     SLUICEPOD_BAD_HEADER     a commit object's header is not good; the number of the first line after which no good
 *                              one is possible is the one value
 *     SLUICEPOD_NOT_A_MAILBOX  the value is no mailbox; the place where none goes on is the one value
 *     SLUICEPOD_NINTH_COMMENT  the same, where a comment is opened inside eight others
 *     SLUICEPOD_NO_READING     `reading` is no enum sluicepod_reading
 *     SLUICEPOD_NO_KIND        `kind` is no enum sluicepod_kind
 *     SLUICEPOD_SHORT_RESULT   `result` has fewer than SLUICEPOD_RESULT_LEN entries
 * Where several hold, the code is the first of SHORT_RESULT, NO_READING, NO_KIND, TOO_LONG, BAD_PLACE, NO_ROOM, BAD_HEADER,
 * NOT_A_MAILBOX; the calls on bundles, the listings, and the call that adds a trailer have an order of their own, below.
 *
 * Result. The values of an answer are written to the front of `result`: result[0] says how many there are, and
 * result[1], result[2], .. are the values, in the order that each call gives below. Entries behind them are kept.
 * The refusals TOO_LONG, BAD_PLACE, BAD_TOKEN, BAD_VALUE, NOTHING_TO_STAND_ON, MORE_BYTES, NOT_A_BUNDLE, NO_READING and
 * NO_KIND have no values (result[0] is 0), those for want of room in a listing have two, the others have one.
 * SHORT_RESULT alone writes nothing, neither to `result` nor to `out`. Every call asks for the same SLUICEPOD_RESULT_LEN
 * entries.
 *
 * Out. A summary, or a trailer's value, that is not a part of the input as it stands is written to the front of `out`;
 * bytes behind it are kept, and with any code but SLUICEPOD_OK all of them are. `out` of the input's length is always
 * enough. Where a value stands is given by three values, its place:
 *     0, start, end            a part of the input
 *     1, start, end            a part of `out`
 *
 * Lines. Every trailer comes with the number of the line where it starts. Lines are counted from 1: the number of a
 * position is one more than the LFs before it; a CR ends no line without its LF. A message's lines are counted with those
 * of its title, a bare body's from its first line. A walk by steps counts on from the number that it is handed, so a
 * cursor of that walk has two numbers: a position, and the number of its line. sluicepod_message_trailers,
 * sluicepod_body_trailers and sluicepod_cursor_at give right ones. A step handed another number than the right one
 * answers with numbers that are off by as much, and is right in all else.
 *
 * History. sluicepod_next_trailer takes a parameter more than it did, `line` behind `at`, and answers with two values
 * more behind those it had, at the walk's end with one. A caller of the old call hands it the number from
 * sluicepod_message_trailers or sluicepod_body_trailers and then the one from each step; one that needs no numbers can
 * hand it 1 each time. Whoever told the walk's end by its one value now tells it by two. sluicepod_find_trailer and
 * sluicepod_message_trailers have one value more behind those they had.
 */
#ifndef SLUICEPOD_H
#define SLUICEPOD_H

#include <stddef.h>
#include <stdint.h>

#ifdef __cplusplus
extern "C" {
#endif

/* The longest input, in bytes. */
#define SLUICEPOD_LIMIT 1048576

/* How many entries `result` must have: one for how many values there are, and at most fifteen values. */
#define SLUICEPOD_RESULT_LEN 16

/* The codes. */
enum sluicepod_code {
    SLUICEPOD_OK = 0,
    SLUICEPOD_TOO_LONG = 1,
    SLUICEPOD_BAD_PLACE = 2,
    SLUICEPOD_NO_ROOM = 3,
    SLUICEPOD_SHORT_TABLE = 4,
    SLUICEPOD_BAD_TOKEN = 5,
    SLUICEPOD_BAD_VALUE = 6,
    SLUICEPOD_NOTHING_TO_STAND_ON = 7,
    SLUICEPOD_MORE_BYTES = 8,
    SLUICEPOD_MISSING = 9,
    SLUICEPOD_REPEATED = 10,
    SLUICEPOD_BAD_CONTENT = 11,
    SLUICEPOD_NOT_A_BUNDLE = 12,
    SLUICEPOD_BAD_HEADER = 13,
    SLUICEPOD_NOT_A_MAILBOX = 14,
    SLUICEPOD_NINTH_COMMENT = 15,
    SLUICEPOD_NO_READING = 253,
    SLUICEPOD_NO_KIND = 254,
    SLUICEPOD_SHORT_RESULT = 255
};

/* Which tokens a walk or a question is about. Tokens are compared without regard to ASCII case. */
enum sluicepod_kind {
    SLUICEPOD_ALL = 0,            /* every token */
    SLUICEPOD_SIGNED_OFF_BY = 1,  /* Signed-off-by */
    SLUICEPOD_CO_AUTHORED_BY = 2, /* Co-authored-by */
    SLUICEPOD_ASSISTED_BY = 3,    /* Assisted-by */
    SLUICEPOD_ACKED_BY = 4,       /* Acked-by */
    SLUICEPOD_REVIEWED_BY = 5,    /* Reviewed-by */
    SLUICEPOD_TESTED_BY = 6,      /* Tested-by */
    SLUICEPOD_ATTRIBUTION = 7,    /* any of these six */
    SLUICEPOD_AUTHOR = 8          /* Signed-off-by or Co-authored-by */
};

/* How a line ends. A CR without an LF behind it ends a line only at the input's end; elsewhere it is text, and so is
 * every CR but the one right before the LF. */
enum sluicepod_ending {
    SLUICEPOD_LF = 0,       /* LF */
    SLUICEPOD_CR_LF = 1,    /* CR LF */
    SLUICEPOD_CR = 2,       /* a CR alone */
    SLUICEPOD_NO_ENDING = 3 /* none */
};

/* The title and the body of a message. The title begins at 0, the body ends at the message's end.
 * Values: where the title ends, where the body starts; the first alone where there is no body. */
uint32_t sluicepod_title_and_body(const uint8_t *message, size_t message_len, size_t *result, size_t result_len);

/* The summary of a title, in one line. Values: its place (three). */
uint32_t sluicepod_summary(const uint8_t *title, size_t title_len, uint8_t *out, size_t out_len, size_t *result,
                           size_t result_len);

/* The summary of a whole message, by the rule for a title. It is not always that of the title: with line ends of CR LF
 * the body is read too. Values: its place (three). */
uint32_t sluicepod_message_summary(const uint8_t *message, size_t message_len, uint8_t *out, size_t out_len,
                                   size_t *result, size_t result_len);

/* Where the trailer block of a body starts, and how the body's last line ends that is not blank.
 * Values: the start, which is the body's length where there is no block; an enum sluicepod_ending, that of the last line
 * that is not blank, whether or not there is a block, and SLUICEPOD_NO_ENDING where every line is blank. */
uint32_t sluicepod_block_start(const uint8_t *body, size_t body_len, size_t *result, size_t result_len);

/* Where the walk of a message's trailers begins: hand it to sluicepod_next_trailer, with the message as the body. The LFs
 * above are counted, so the time grows with the message's length.
 * Values: the position, which is the message's length where there is no body or no block; the number of its line in the
 * message, the title's lines included. */
uint32_t sluicepod_message_trailers(const uint8_t *message, size_t message_len, size_t *result, size_t result_len);

/* Where the walk of a body's trailers begins: hand it to sluicepod_next_trailer. The LFs above are counted here too.
 * Values: the position, which is the block's start, and the body's length where there is no block; the number of its line
 * in the body. */
uint32_t sluicepod_body_trailers(const uint8_t *body, size_t body_len, size_t *result, size_t result_len);

/* The cursor of the position `at`, anywhere in a line: for a walk that begins elsewhere, as at the trailers of a block.
 * Values: the position; the number of its line. */
uint32_t sluicepod_cursor_at(const uint8_t *input, size_t input_len, size_t at, size_t *result, size_t result_len);

/* The next trailer from the position `at` on whose token is of the kind. `line` is the number of that position's line; 0
 * and one over `at` + 1 are a BAD_PLACE. The walk of a body begins where sluicepod_body_trailers says.
 * Values: the token's start, the token's end, the value's place (three), the position to go on from, an enum
 * sluicepod_ending, that of the trailer's last line, the number of the line where the trailer starts, the number of the
 * line to go on from (nine); at the end of the walk the position, which is the body's length, and the number of its line
 * (two). */
uint32_t sluicepod_next_trailer(const uint8_t *body, size_t body_len, size_t at, size_t line, uint32_t kind,
                                uint8_t *out, size_t out_len, size_t *result, size_t result_len);

/* The last trailer of a body whose token is `name`, ASCII case aside: of an offload that was retried, the state that
 * holds. An empty name is found nowhere. Only that trailer's value is written, and only for it room is needed.
 * Values: the token's start, the token's end, the value's place (three), an enum sluicepod_ending, that of the trailer's
 * last line, the number of the line where the trailer starts (seven); none where there is no such trailer. */
uint32_t sluicepod_find_trailer(const uint8_t *body, size_t body_len, const uint8_t *name, size_t name_len,
                                uint8_t *out, size_t out_len, size_t *result, size_t result_len);

/* The next block from the position `at` on: a message and the trailers under it. `start` is where the body's trailer
 * block starts; one before `at` counts as `at`. The walk begins with at 0 and the block's start.
 * Values: the message's end (it begins at `at`), the block's end (the trailers stand between the two), then the `at`
 * and the `start` to go on from; at the end of the walk the last two alone, which are the body's length. */
uint32_t sluicepod_next_block(const uint8_t *body, size_t body_len, size_t at, size_t start, size_t *result,
                              size_t result_len);

/* Whether the part of `input` from `start` up to `end` is a token of the kind. Values: 1 for yes, 0 for no. */
uint32_t sluicepod_is_of_kind(const uint8_t *input, size_t input_len, size_t start, size_t end, uint32_t kind,
                              size_t *result, size_t result_len);

/* A line of a commit object's header. `content` is the object's content, as `git cat-file commit` prints it: lines of a
 * name, a space and a content, `tree`, parents, `author` and `committer` first, then an empty line and the message. Lines
 * that start with a space continue the one above, and are one with it. `number` counts from 0. The header is judged whole
 * before a line is answered, in time that grows with its length.
 * Values: the name's start, the name's end, the content's start, the content's end, continued content as it stands and
 * without its last LF; none where the header has no such line. */
uint32_t sluicepod_header_line(const uint8_t *content, size_t content_len, size_t number, size_t *result,
                               size_t result_len);

/* The message of a commit object: what is behind the header's empty line. Hand that part of the content to the calls
 * above. Values: the message's start, the message's end, which is the content's. */
uint32_t sluicepod_commit_message(const uint8_t *content, size_t content_len, size_t *result, size_t result_len);

/* The name and the address of an unfolded value that is an RFC 5322 mailbox with angle brackets, as `A B <a@b>`. The name
 * runs from the first word's start to the last one's end, and is empty at the `<` where there are no words; the address
 * runs from the first dot-atom's start to the second's end. Quotes, and white space and comments inside, belong to them.
 * Values: the name's start and end, the address's start and end. With NOT_A_MAILBOX and NINTH_COMMENT: the place of the
 * first byte with which no mailbox goes on, or the value's length. */
uint32_t sluicepod_mailbox(const uint8_t *value, size_t value_len, size_t *result, size_t result_len);

/* ---- Bundles: many messages in one file
 *
 * A bundle is a count, of at most SLUICEPOD_BUNDLE_MOST, then count + 1 offsets, each a 32-bit number, little endian, then
 * the messages. The first offset is the header's length, the last the bundle's, none falls; equal neighbours mean an
 * empty message. Its calls refuse in the order SHORT_RESULT, TOO_LONG for an input, BAD_PLACE, NOT_A_BUNDLE, TOO_LONG for
 * the result, NO_ROOM. */

/* The most messages of one bundle. */
#define SLUICEPOD_BUNDLE_MOST 4096

/* Writes the bundle of some messages of `input` to the front of `out`. `ranges` gives them, start and end in turn; a last
 * start without an end is a BAD_PLACE. They may overlap, be empty, and stand in any order. The ranges are no input for the
 * limit. Values: the bundle's length. */
uint32_t sluicepod_write_bundle(const uint8_t *input, size_t input_len, const size_t *ranges, size_t ranges_len,
                                uint8_t *out, size_t out_len, size_t *result, size_t result_len);

/* The number of messages of a bundle. Values: the number. */
uint32_t sluicepod_bundle_count(const uint8_t *bundle, size_t bundle_len, size_t *result, size_t result_len);

/* Message `k` of a bundle, counted from 0. Values: its start and its end in the bundle; none past the last message. */
uint32_t sluicepod_bundle_message(const uint8_t *bundle, size_t bundle_len, size_t k, size_t *result,
                                  size_t result_len);

/* The report of a bundle. Values: how many trailers the messages have with the tokens Signed-off-by, Co-authored-by,
 * Assisted-by, Acked-by, Reviewed-by and Tested-by, ASCII case aside, and with all other tokens; and how many messages
 * have no trailers (eight). */
uint32_t sluicepod_bundle_report(const uint8_t *bundle, size_t bundle_len, size_t *result, size_t result_len);

/* ---- Messages with a patch below
 *
 * A divider is a line whose text is `---` or starts with `--- `; a tab behind the hyphens makes none. In the second
 * reading a message ends before its first divider. The calls above that read a whole message have the first reading;
 * these are asked for either. TOO_LONG judges the message uncut in both. */

/* How a message is read. */
enum sluicepod_reading {
    SLUICEPOD_WHOLE = 0,        /* all of it */
    SLUICEPOD_ABOVE_DIVIDER = 1 /* up to its first divider, if it has one */
};

/* Where a message ends. Whoever walks on by sluicepod_next_trailer hands it the message up to there, with the position of
 * sluicepod_message_trailers_in: the steps read all that they are given. Values: the end; the message's length where it
 * has no divider, or is read whole. */
uint32_t sluicepod_message_end(const uint8_t *message, size_t message_len, uint32_t reading, size_t *result,
                               size_t result_len);

/* Each of these answers as the call without `_in` does of the message up to that end. */
uint32_t sluicepod_title_and_body_in(const uint8_t *message, size_t message_len, uint32_t reading, size_t *result,
                                     size_t result_len);
uint32_t sluicepod_message_summary_in(const uint8_t *message, size_t message_len, uint32_t reading, uint8_t *out,
                                      size_t out_len, size_t *result, size_t result_len);
uint32_t sluicepod_message_trailers_in(const uint8_t *message, size_t message_len, uint32_t reading, size_t *result,
                                       size_t result_len);

/* ---- The closing note
 *
 * What the unit asks before it erases a bus's data. An entry is a closing note if its trailers hold exactly one Vehicle of
 * 1 to 6 digits, one Records, a decimal from 0 to 1,000,000 without needless zeros, and one Offload-state, `complete` or
 * `partial` in those bytes. Names are compared without regard to ASCII case; the fields may stand in any order, among
 * other trailers; values are judged unfolded, and no buffer is lent. `reading` is as above. Of the refusals TOO_LONG,
 * MISSING, REPEATED and BAD_CONTENT the first that holds is the code, in that order, with the first such field. */

/* The fields. */
enum sluicepod_field {
    SLUICEPOD_VEHICLE = 0,      /* Vehicle */
    SLUICEPOD_RECORDS = 1,      /* Records */
    SLUICEPOD_OFFLOAD_STATE = 2 /* Offload-state */
};

/* The closing note. Values: the start and the end of the vehicle's digits in the message, the count, and 1 if the state is
 * `complete` or 0 if it is `partial`. */
uint32_t sluicepod_closing_note(const uint8_t *message, size_t message_len, uint32_t reading, size_t *result,
                                size_t result_len);

/* Whether the unit may erase, where `received` records were received. Values: 1, if the state is complete and the count is
 * `received`, and 0 otherwise. Only SLUICEPOD_OK with 1 means yes. */
uint32_t sluicepod_may_erase(const uint8_t *message, size_t message_len, uint32_t reading, size_t received,
                             size_t *result, size_t result_len);

/* ---- A trailer added to a message */

/* Writes the message with one trailer more to the front of `out`: `message` without the blank lines at its end, its last
 * line with an LF, an empty line unless the body has an accepted block, then the token, a colon, a space and the value.
 * The new lines end with CR LF where the last non-blank line of `message` does, and with LF elsewhere. Read again, the
 * trailers are the old ones, at their places, and then the new one.
 * The token is letters, digits or hyphens, at least one; the value has no LF and no white space at its ends, and may be
 * empty. It refuses in the order SHORT_RESULT, TOO_LONG for an input, BAD_TOKEN, BAD_VALUE, NOTHING_TO_STAND_ON, TOO_LONG
 * for the result, NO_ROOM. `out` with six bytes more than the three inputs together is always enough.
 * Values: the length of what is written. */
uint32_t sluicepod_add_trailer(const uint8_t *message, size_t message_len, const uint8_t *token, size_t token_len,
                               const uint8_t *value, size_t value_len, uint8_t *out, size_t out_len, size_t *result,
                               size_t result_len);

/* ---- All trailers at once
 *
 * A table is lent as numbers, SLUICEPOD_RECORD_LEN for each record; numbers at its end that are too few for a record are
 * not used. A record is: the token's start, the token's end, the value's place (three), an enum sluicepod_ending, that of
 * the trailer's last line, and the number of the line where the trailer starts. The calls refuse in the order
 * SHORT_RESULT, NO_READING, TOO_LONG, BAD_PLACE, SHORT_TABLE, NO_ROOM; a refusal writes neither to `table` nor to `out`.
 * They are fastest where the table has a room for each line that is left and `out` a byte for each byte: then nothing has
 * to be counted first. */

/* How many numbers of a table each record has. */
#define SLUICEPOD_RECORD_LEN 7

/* All trailers from the position `at` on, which stands on the line with the number `line`: as sluicepod_next_trailer gives
 * them, called until the end. Folded values are written to `out` one behind another, and their places count from its
 * front. Entries of `table` and bytes of `out` behind what is written are kept. With a table of no entries and no room
 * the call tells what is needed.
 * Values: how many records and how many bytes were written; with SHORT_TABLE and NO_ROOM, how many are needed. */
uint32_t sluicepod_list_from(const uint8_t *input, size_t input_len, size_t at, size_t line, size_t *table,
                             size_t table_len, uint8_t *out, size_t out_len, size_t *result, size_t result_len);

/* The same of a whole message, in the reading `reading`: from where the walk of its trailers begins. Places and numbers
 * count in the message.
 * Values: as those of sluicepod_list_from. */
uint32_t sluicepod_list_trailers(const uint8_t *message, size_t message_len, uint32_t reading, size_t *table,
                                 size_t table_len, uint8_t *out, size_t out_len, size_t *result, size_t result_len);

/* The trailers of a body by its last bytes, `tail`; `whole` is 0 where they are not all of the body. They are those of the
 * full walk, but places in the input are distances from the end of `tail`, so that a part's start is the greater number,
 * and the number of a line counts upward from the last line, which is 1. Places in `out` count from its front.
 * Where the bytes are not all, the first line is taken as torn. MORE_BYTES says that they do not settle the trailers: behind
 * the torn line no blank line has a non-blank one below it. Then hand over more of the body's end: begin with some 4,096
 * bytes, double them with each MORE_BYTES, and set `whole` once all of the body is there, which is never refused so.
 * Nothing above the blank line over the last paragraph matters, so a whole body costs no more than its foot.
 * The call refuses in the order SHORT_RESULT, TOO_LONG, MORE_BYTES, SHORT_TABLE, NO_ROOM.
 * Values: how many records and how many bytes were written, and how many lines were looked at: from the last up to the
 * blank line above the last paragraph, or to the top of a whole body; with SHORT_TABLE and NO_ROOM, the records and the
 * bytes needed. */
uint32_t sluicepod_list_foot(const uint8_t *tail, size_t tail_len, uint32_t whole, size_t *table, size_t table_len,
                             uint8_t *out, size_t out_len, size_t *result, size_t result_len);

#ifdef __cplusplus
}
#endif

#endif
