//! The original's answers, as offsets and bytes.
//!
//! The original answers with slices. A slice's place is how far its pointer lies behind the input's; the original
//! never answers a slice from elsewhere unless it is empty. It numbers no lines: the LFs before its places are counted here.

use std::borrow::Cow;

use original::{
    bstr::{BStr, ByteSlice},
    commit::{
        message::{
            body::{TrailerRef, Trailers},
            BodyRef,
        },
        MessageRef,
    },
    CommitRef,
};

use crate::answers::{
    block_cursors, names, places, Answer, Attribution, Block, Cursor, Ending, Filter, NoReading, Part, Reading,
    Trailer, Value, FILTERS, LIMIT,
};

/// The title's end and, where there is a body, the body's start.
pub fn title_and_body(message: &[u8]) -> (usize, Option<usize>) {
    let split = MessageRef::from_bytes(message);
    (
        part(message, split.title).end,
        split.body.map(|body| part(message, body).start),
    )
}

/// `MessageRef::summary()` of a message that is this title.
pub fn summary(title: &[u8]) -> Value {
    let message = MessageRef {
        title: title.as_bstr(),
        body: None,
    };
    value(title, message.summary())
}

/// `CommitRef::message_summary()`.
pub fn message_summary(message: &[u8]) -> Value {
    value(message, commit(message).message_summary())
}

/// Where the trailer block of a body begins; the body's length where there is none.
pub fn block_start(body: &[u8]) -> usize {
    BodyRef::from_bytes(body).without_trailer().len()
}

/// How the body's last line ends that is not blank; none where every line is blank. The original does not say it: the lines
/// are read plainly here, from the last one up, and what ends the one that is found is left to the original's line rule.
pub fn body_ending(body: &[u8]) -> Ending {
    let mut end = body.len();
    while end > 0 {
        let start = body[..end - 1].rfind_byte(b'\n').map_or(0, |lf| lf + 1);
        if !body[start..end].iter().all(u8::is_ascii_whitespace) {
            return ending(&body[start..end]);
        }
        end = start;
    }
    Ending::None
}

/// What the original's line rule leaves off the last of some lines.
fn ending(lines: &[u8]) -> Ending {
    let last = lines.lines_with_terminator().last().unwrap_or_default();
    match &last[original::line_text(last).len()..] {
        b"\n" => Ending::Lf,
        b"\r\n" => Ending::CrLf,
        b"\r" => Ending::Cr,
        b"" => Ending::None,
        other => unreachable!("the line rule leaves off {other:?}"),
    }
}

/// The trailers of a body.
pub fn trailers(body: &[u8]) -> Vec<Trailer> {
    all(body, BodyRef::from_bytes(body).trailers())
}

/// The trailers of a body that a filter lets through.
pub fn filtered(body: &[u8], filter: Filter) -> Vec<Trailer> {
    let parsed = BodyRef::from_bytes(body);
    through(body, parsed.trailers(), filter, &all(body, parsed.trailers()))
}

fn through(body: &[u8], walk: Trailers<'_>, filter: Filter, walked: &[Trailer]) -> Vec<Trailer> {
    match filter {
        Filter::SignedOffBy => with_next(body, walked, walk.signed_off_by()),
        Filter::CoAuthoredBy => with_next(body, walked, walk.co_authored_by()),
        Filter::AssistedBy => with_next(body, walked, walk.assisted_by()),
        Filter::Attributions => with_next(body, walked, walk.attributions()),
        Filter::Authors => with_next(body, walked, walk.authors()),
    }
}

/// The trailers of a message, in offsets of the message.
pub fn message_trailers(message: &[u8]) -> Vec<Trailer> {
    all(message, commit(message).message_trailers())
}

/// Where the walk of a message's trailers begins; the message's length where it has no body or its body no block.
pub fn message_walk_start(message: &[u8]) -> usize {
    match original::rest(&commit(message).message_trailers()) {
        [] => message.len(),
        rest => part(message, rest).start,
    }
}

/// The trailers of a message that a filter lets through.
pub fn message_filtered(message: &[u8], filter: Filter) -> Vec<Trailer> {
    message_through(message, filter, &message_trailers(message))
}

fn message_through(message: &[u8], filter: Filter, walked: &[Trailer]) -> Vec<Trailer> {
    let commit = commit(message);
    match filter {
        Filter::SignedOffBy => with_next(message, walked, commit.signed_off_by_trailers()),
        Filter::CoAuthoredBy => with_next(message, walked, commit.co_authored_by_trailers()),
        Filter::AssistedBy => with_next(message, walked, commit.assisted_by_trailers()),
        Filter::Attributions => with_next(message, walked, commit.attribution_trailers()),
        Filter::Authors => with_next(message, walked, commit.author_trailers()),
    }
}

/// One step of the trailer walk from any place of a body on, as if a line began there.
pub fn step(body: &[u8], at: usize) -> Option<Trailer> {
    step_from(body, Cursor::of(body, at))
}

/// The same where the number of the place's line is known.
fn step_from(body: &[u8], mut cursor: Cursor) -> Option<Trailer> {
    let mut walk = original::walk(&body[cursor.at..]);
    next(body, &mut cursor, &mut walk)
}

/// The blocks of a body. The original shows a block's trailer part through its walk only; before its first step that
/// walk holds all of the part.
pub fn blocks(body: &[u8]) -> Vec<Block> {
    blocks_of(body, BodyRef::from_bytes(body))
}

fn blocks_of(body: &[u8], parsed: BodyRef<'_>) -> Vec<Block> {
    let mut cursor = Cursor::FRONT;
    parsed
        .message_blocks()
        .map(|block| Block {
            message: part(body, block.message),
            trailer_part: part(body, original::rest(&block.trailers())),
            trailers: all_from(body, &mut cursor, block.trailers()),
        })
        .collect()
}

/// The questions that the original answers of a trailer with this token.
pub fn attribution(token: &[u8]) -> Attribution {
    let trailer = TrailerRef {
        token: token.as_bstr(),
        value: Cow::Borrowed(b"".as_bstr()),
    };
    Attribution {
        signed_off_by: trailer.is_signed_off_by(),
        co_authored_by: trailer.is_co_authored_by(),
        assisted_by: trailer.is_assisted_by(),
        acked_by: trailer.is_acked_by(),
        reviewed_by: trailer.is_reviewed_by(),
        tested_by: trailer.is_tested_by(),
        attribution: trailer.is_attribution(),
    }
}

/// The named lookup, which the original does not have: the last match in the original's walk.
pub fn find(body: &[u8], name: &[u8]) -> Option<Trailer> {
    found(body, &trailers(body), name)
}

/// A block step from any cursor: the message part and the trailer part. The original begins a block walk at a body's
/// front only, so this is composed from its trailer steps.
pub fn block_step(body: &[u8], at: usize, start: usize) -> Option<(Part, Part)> {
    if at == body.len() {
        return None;
    }
    let mut message_end = start.max(at);
    while message_end < body.len() && trailer_at(body, message_end).is_none() {
        message_end = line_end(body, message_end);
    }
    let mut end = message_end;
    while let Some(next) = trailer_at(body, end) {
        end = next;
    }
    let message = Part {
        start: at,
        end: message_end,
    };
    let trailer_part = Part {
        start: message_end,
        end,
    };
    Some((message, trailer_part))
}

/// Where the trailer ends that begins at a line's start: a walk over this line alone finds one. No number is asked for, so
/// none is counted.
fn trailer_at(body: &[u8], at: usize) -> Option<usize> {
    let end = |lines: &[u8]| step_from(lines, Cursor { at, line: 1 }).map(|trailer| trailer.next);
    end(&body[..line_end(body, at)])?;
    end(body)
}

fn line_end(body: &[u8], at: usize) -> usize {
    body[at..].find_byte(b'\n').map_or(body.len(), |lf| at + lf + 1)
}

/// All answers about one input, of any length. What passes through a filter is asked for only where the walk finds
/// something: the filters pass on what the same walk finds.
pub fn read(input: &[u8]) -> Reading {
    let (title_end, body_start) = title_and_body(input);
    let message_trailers = message_trailers(input);
    let body = BodyRef::from_bytes(input);
    let trailers = all(input, body.trailers());
    Reading {
        title_end,
        body_start,
        summary: summary(&input[..title_end]),
        message_summary: message_summary(input),
        message_walk_start: Cursor::of(input, message_walk_start(input)),
        message_filtered: FILTERS.map(|filter| match message_trailers[..] {
            [] => Vec::new(),
            _ => message_through(input, filter, &message_trailers),
        }),
        message_trailers,
        block_start: body.without_trailer().len(),
        ending: body_ending(input),
        walk_start: Cursor::of(input, body.without_trailer().len()),
        filtered: FILTERS.map(|filter| match trailers[..] {
            [] => Vec::new(),
            _ => through(input, body.trailers(), filter, &trailers),
        }),
        attributions: trailers
            .iter()
            .map(|trailer| attribution(trailer.token.of(input)))
            .collect(),
        blocks: blocks_of(input, body),
        cursors: places(input.len())
            .into_iter()
            .map(|at| Cursor::of(input, at))
            .collect(),
        steps: places(input.len()).into_iter().map(|at| step(input, at)).collect(),
        block_steps: block_cursors(input.len())
            .into_iter()
            .map(|(at, start)| block_step(input, at, start))
            .collect(),
        found: names(input, &trailers)
            .iter()
            .map(|name| found(input, &trailers, name))
            .collect(),
        trailers,
        as_token: attribution(input),
    }
}

/// What the port must answer: the original's reading, or the refusal of an input that is over the limit.
pub fn answer(input: &[u8]) -> Answer {
    if input.len() > LIMIT {
        return Err(NoReading::Refused(1));
    }
    Ok(read(input))
}

/// Where the original puts the summary of a whole message, an empty one too: the distance from the message's front, or
/// none where the summary was written.
pub fn summary_place(message: &[u8]) -> Option<usize> {
    let message = message.to_vec();
    let summary = commit(&message).message_summary();
    place_of(&message, summary)
}

/// Where the original puts the value of a body's first trailer, an empty one too; none where it was written or lies
/// outside the body.
pub fn first_value_place(body: &[u8]) -> Option<usize> {
    let body = body.to_vec();
    let trailer = BodyRef::from_bytes(&body).trailers().next()?;
    place_of(&body, trailer.value)
}

/// The input must be a copy on the heap: an empty literal of the program can lie right behind another literal.
fn place_of(copy: &[u8], answer: Cow<'_, BStr>) -> Option<usize> {
    match answer {
        Cow::Borrowed(slice) => offset(copy, slice),
        Cow::Owned(_) => None,
    }
}

fn commit(message: &[u8]) -> CommitRef<'_> {
    CommitRef {
        message: message.as_bstr(),
    }
}

fn offset(input: &[u8], slice: &[u8]) -> Option<usize> {
    let front = input.as_ptr() as usize;
    let at = (slice.as_ptr() as usize).checked_sub(front)?;
    (at + slice.len() <= input.len()).then_some(at)
}

fn part(input: &[u8], slice: &[u8]) -> Part {
    let start = offset(input, slice).expect("a slice of the input");
    Part {
        start,
        end: start + slice.len(),
    }
}

fn value(input: &[u8], answer: Cow<'_, BStr>) -> Value {
    match answer {
        Cow::Owned(bytes) => Value::Written(bytes.into()),
        Cow::Borrowed(slice) if slice.is_empty() => Value::Empty,
        Cow::Borrowed(slice) => Value::Part(part(input, slice)),
    }
}

/// The cursor, which is at most where the walk is, goes on with it.
fn next(input: &[u8], cursor: &mut Cursor, walk: &mut Trailers<'_>) -> Option<Trailer> {
    let trailer = walk.next()?;
    let token = part(input, trailer.token);
    let next = part(input, original::rest(walk)).start;
    let here = cursor.moved_on(input, token.start);
    *cursor = here.moved_on(input, next);
    Some(Trailer {
        token,
        value: value(input, trailer.value),
        next,
        ending: ending(&input[token.start..next]),
        line: here.line,
        next_line: cursor.line,
    })
}

fn all(input: &[u8], walk: Trailers<'_>) -> Vec<Trailer> {
    let mut cursor = Cursor::FRONT;
    all_from(input, &mut cursor, walk)
}

fn all_from(input: &[u8], cursor: &mut Cursor, mut walk: Trailers<'_>) -> Vec<Trailer> {
    let mut trailers = Vec::new();
    while let Some(trailer) = next(input, cursor, &mut walk) {
        trailers.push(trailer);
    }
    trailers
}

/// A filter hides where the walk behind it stands, and with it how the trailer's last line ends; the same trailer of the
/// open walk tells them, and the numbers of the lines.
fn with_next<'a>(input: &[u8], walked: &[Trailer], kept: impl Iterator<Item = TrailerRef<'a>>) -> Vec<Trailer> {
    let mut walked = walked.iter();
    kept.map(|trailer| {
        let token = part(input, trailer.token);
        let step = walked
            .find(|step| step.token == token)
            .expect("a filtered trailer is in the walk");
        Trailer {
            token,
            value: value(input, trailer.value),
            next: step.next,
            ending: step.ending,
            line: step.line,
            next_line: step.next_line,
        }
    })
    .collect()
}

fn found(body: &[u8], trailers: &[Trailer], name: &[u8]) -> Option<Trailer> {
    trailers
        .iter()
        .rfind(|trailer| trailer.token.of(body).eq_ignore_ascii_case(name))
        .cloned()
}

#[cfg(test)]
mod tests {
    use std::ops::ControlFlow;

    use super::*;
    use crate::inputs::Plan;

    fn part(start: usize, end: usize) -> Part {
        Part { start, end }
    }

    fn written(bytes: &[u8]) -> Value {
        Value::Written(bytes.to_vec())
    }

    fn parts(body: &[u8]) -> Vec<(Part, Part)> {
        blocks(body)
            .into_iter()
            .map(|block| (block.message, block.trailer_part))
            .collect()
    }

    #[test]
    fn the_fourteen_cases_of_document_01() {
        assert_eq!(title_and_body(b""), (0, None));
        assert_eq!(title_and_body(b"a\r\n\r\n"), (1, None));
        assert_eq!(title_and_body(b"a\n\r\nb"), (1, Some(4)));

        assert_eq!(read(b"a\r\n\r\nb").summary, Value::Part(part(0, 1)));
        assert_eq!(message_summary(b"a\r\n\r\nb"), written(b"a  b"));
        assert_eq!(summary(b"a \n  b"), written(b"a   b"));

        assert_eq!(block_start(b"x\r\n\r\nA: b"), 1);
        assert_eq!(parts(b"x\r\n\r\nA: b"), [(part(0, 5), part(5, 9))]);

        assert_eq!(block_start(b"Signed-off-by: a\nx\ny\nz"), 0);
        assert_eq!(trailers(b"Signed-off-by: a\nx\ny\nz").len(), 1);
        assert_eq!(block_start(b"Signed-off-by: a\nx\ny\nz\nw"), 24);
        assert_eq!(trailers(b"Signed-off-by: a\nx\ny\nz\nw").len(), 0);
        assert_eq!(block_start(b"Signed-off-by:a\nx"), 17);

        let picked = b"(cherry picked from commit 1)";
        assert_eq!(block_start(picked), 0);
        assert_eq!(trailers(picked), []);
        assert_eq!(parts(picked), [(part(0, 29), part(29, 29))]);

        assert_eq!(block_start(b" c\nA: b"), 7);
        assert_eq!(block_start(b"A: b\n\t\x0b\n c"), 0);
        assert_eq!(trailers(b"A: b\n\t\x0b\n c")[0].value, written(b"b c"));

        let acked = &trailers(b"Acked-by : A")[0];
        assert_eq!(acked.token, part(0, 8));
        assert_eq!(acked.value, Value::Part(part(11, 12)));
        assert_eq!(trailers(b":x"), []);

        let two = parts(b"A: b\nSigned-off-by: c\nx\nD: e\n");
        assert_eq!(two, [(part(0, 0), part(0, 22)), (part(22, 24), part(24, 29))]);
    }

    #[test]
    fn the_examples_of_line_ends_of_document_02() {
        let line = |line| (original::line_text(line).len(), ending(line));
        assert_eq!(line(b"a\r\r\n"), (2, Ending::CrLf));
        assert_eq!(line(b"a\r"), (1, Ending::Cr));
        assert_eq!(line(b"a\rb"), (3, Ending::None));

        let start = |body| (block_start(body), body_ending(body));
        assert_eq!(start(b"x\r\n"), (3, Ending::CrLf));
        assert_eq!(start(b"A: b\r\n\n \n"), (0, Ending::CrLf));
        assert_eq!(start(b""), (0, Ending::None));
        assert_eq!(start(b"\r\n \n"), (4, Ending::None));

        let folded = step(b"A: b\r\n c\n", 0).unwrap();
        assert_eq!(
            (folded.value, folded.next, folded.ending),
            (written(b"b c"), 9, Ending::Lf)
        );
    }

    #[test]
    fn the_line_rule_s_text_ends_where_the_block_start_says() {
        // The block starts with the ending of the line above the blank line, so there the rule can be seen from outside.
        for line in ["\n", "a\n", "\r\n", "a\r\n", "a\r\r\n", "a\rb\n"].map(str::as_bytes) {
            let body = [line, b"\nA:"].concat();
            assert_eq!(
                original::line_text(line).len(),
                block_start(&body),
                "{}",
                line.escape_ascii()
            );
        }
    }

    #[test]
    fn a_filtered_trailer_says_where_the_walk_goes_on() {
        let body = b"A: b\nsigned-off-BY: c\nCo-authored-by: d\n";
        let authors = filtered(body, Filter::Authors);
        assert_eq!(authors.iter().map(|trailer| trailer.next).collect::<Vec<_>>(), [22, 40]);
        assert_eq!(filtered(body, Filter::AssistedBy), []);

        let message = [b"t\n\n", &body[..]].concat();
        let moved: Vec<Trailer> = authors.into_iter().map(|trailer| trailer.moved(3, 2)).collect();
        assert_eq!(message_filtered(&message, Filter::Authors), moved);
    }

    #[test]
    fn lines_are_counted_by_their_lfs() {
        let lines = |trailers: Vec<Trailer>| -> Vec<(usize, usize)> {
            trailers
                .iter()
                .map(|trailer| (trailer.line, trailer.next_line))
                .collect()
        };
        let body = b"x\r\n\nA: b\rc\n d\nSigned-off-by: e\nx\nF: g";
        assert_eq!(lines(trailers(body)), [(3, 5), (5, 6), (7, 7)]);
        assert_eq!(lines(filtered(body, Filter::Authors)), [(5, 6)]);
        let by_block: Vec<_> = blocks(body).into_iter().map(|block| lines(block.trailers)).collect();
        assert_eq!(by_block, [vec![(3, 5), (5, 6)], vec![(7, 7)]]);
        assert_eq!(find(body, b"f").unwrap().line, 7);
        let message = [b"t\nu\n\n", &body[..]].concat();
        assert_eq!(lines(message_trailers(&message)), [(6, 8), (8, 9), (10, 10)]);
    }

    #[test]
    fn a_step_from_the_middle_reads_as_if_a_line_began_there() {
        let trailer = step(b"xA: b", 1).unwrap();
        assert_eq!(trailer.token, part(1, 2));
        assert_eq!(trailer.next, 5);
        assert_eq!(step(b"xA: b", 5), None);
    }

    #[test]
    fn the_composed_block_step_gives_the_original_s_blocks() {
        let plan = Plan {
            seed: 1,
            deeper: -2,
            messages: 2_000,
            long: false,
        };
        let _ = plan.each(&mut |_, body| {
            let mut stepped = Vec::new();
            let (mut at, mut start) = (0, block_start(body));
            while let Some((message, trailer_part)) = block_step(body, at, start) {
                stepped.push((message, trailer_part));
                at = trailer_part.end;
                start = at;
            }
            assert_eq!(stepped, parts(body), "{}", body.escape_ascii());
            ControlFlow::Continue(())
        });
    }

    #[test]
    fn a_place_is_told_for_empty_answers_too() {
        assert_eq!(summary_place(b"\t"), Some(1));
        assert_eq!(first_value_place(b"A: "), Some(3));
        assert_eq!(first_value_place(b"A:"), None);
        assert_eq!(summary_place(b"a\nb"), None);
    }
}
