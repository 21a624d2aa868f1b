//! The port's answers, put together from its calls as include/sluicepod.h describes them.
//!
//! What the original has nothing to set against is held to the header's own words on every input: which entries of a
//! result are written, what a buffer holds afterwards, and each refusal. Where the port does not keep them, there is no
//! reading: the answer says what was broken.

use std::array;

use crate::{
    answers::{
        block_cursors, names, places, Answer, Attribution, Block, Cursor, Ending, Filter, NoReading, Part, Reading,
        Trailer, Value, FILTERS, LIMIT,
    },
    archive::{
        self, ACKED_BY, ALL, ASSISTED_BY, ATTRIBUTION, AUTHOR, BAD_PLACE, CO_AUTHORED_BY, CR, CR_LF, LF, NO_ENDING,
        NO_KIND, NO_ROOM, OK, RESULT_LEN, REVIEWED_BY, SHORT_RESULT, SIGNED_OFF_BY, TESTED_BY, TOO_LONG,
    },
    buffers::{ask, Said},
    listing,
};

/// What a call is lent: inputs and a buffer, and its result.
type Bytes = [u8];
type Numbers = [usize];

/// The calls; a test puts another in the place of one.
pub struct Calls {
    pub title_and_body: fn(&Bytes, &mut Numbers) -> u32,
    pub summary: fn(&Bytes, &mut Bytes, &mut Numbers) -> u32,
    pub message_summary: fn(&Bytes, &mut Bytes, &mut Numbers) -> u32,
    pub block_start: fn(&Bytes, &mut Numbers) -> u32,
    pub message_trailers: fn(&Bytes, &mut Numbers) -> u32,
    pub body_trailers: fn(&Bytes, &mut Numbers) -> u32,
    pub cursor_at: fn(&Bytes, usize, &mut Numbers) -> u32,
    pub next_trailer: fn(&Bytes, Cursor, u32, &mut Bytes, &mut Numbers) -> u32,
    pub find_trailer: fn(&Bytes, &Bytes, &mut Bytes, &mut Numbers) -> u32,
    pub list_from: fn(&Bytes, Cursor, &mut Numbers, &mut Bytes, &mut Numbers) -> u32,
    pub next_block: fn(&Bytes, usize, usize, &mut Numbers) -> u32,
    pub is_of_kind: fn(&Bytes, usize, usize, u32, &mut Numbers) -> u32,
}

pub const ARCHIVE: Calls = Calls {
    title_and_body: archive::title_and_body,
    summary: archive::summary,
    message_summary: archive::message_summary,
    block_start: archive::block_start,
    message_trailers: archive::message_trailers,
    body_trailers: archive::body_trailers,
    cursor_at: archive::cursor_at,
    next_trailer: archive::next_trailer,
    find_trailer: archive::find_trailer,
    list_from: archive::list_from,
    next_block: archive::next_block,
    is_of_kind: archive::is_of_kind,
};

/// All answers of the archive about one input.
pub fn answer(input: &[u8]) -> Answer {
    ARCHIVE.answer(input)
}

type Found<T> = Result<T, NoReading>;

impl Calls {
    pub fn answer(&self, input: &[u8]) -> Answer {
        self.refuse_short_results(input)?;
        self.refuse_bad_places(input)?;
        if input.len() > LIMIT {
            self.refuse_all(input)?;
            return Err(NoReading::Refused(1));
        }
        self.read(input)
    }

    fn read(&self, input: &[u8]) -> Answer {
        let (title_end, body_start) = self.title_and_body(input)?;
        let message_walk_start = cursor(|result| (self.message_trailers)(input, result))?;
        let (block_start, ending) = self.block_start(input)?;
        let walk_start = cursor(|result| (self.body_trailers)(input, result))?;
        let cursors = all(&places(input.len()), |&at| self.cursor_at(input, at))?;
        let trailers = self.walk(input, walk_start, ALL)?;
        let attributions: Vec<Attribution> = all(&trailers, |trailer| self.attribution(input, trailer.token))?;
        self.hold_other_kinds(input, walk_start, &trailers, &attributions)?;
        for from in [message_walk_start, Cursor::FRONT] {
            self.hold_listing(input, from)?;
        }
        Ok(Reading {
            title_end,
            body_start,
            summary: self.summary(part(input, 0, title_end)?.of(input))?,
            message_summary: self.message_summary(input)?,
            message_walk_start,
            message_trailers: self.walk(input, message_walk_start, ALL)?,
            message_filtered: self.filtered(input, message_walk_start)?,
            block_start,
            ending,
            walk_start,
            filtered: self.filtered(input, walk_start)?,
            attributions,
            blocks: self.blocks(input, block_start)?,
            steps: all(&cursors, |&cursor| self.step(input, cursor, ALL))?,
            cursors,
            block_steps: all(&block_cursors(input.len()), |&(at, start)| {
                self.block_step(input, at, start)
            })?,
            found: all(&names(input, &trailers), |name| self.find(input, name))?,
            trailers,
            as_token: self.attribution(input, part(input, 0, input.len())?)?,
        })
    }

    fn summary(&self, title: &[u8]) -> Found<Value> {
        value_of(title, |out, result| (self.summary)(title, out, result))
    }

    /// The rule is that of a title: the other call must give the same of the whole message.
    fn message_summary(&self, message: &[u8]) -> Found<Value> {
        let summary = value_of(message, |out, result| (self.message_summary)(message, out, result))?;
        match self.summary(message)? {
            same if same == summary => Ok(summary),
            other => broke(format!("a message's summary {summary:?}, and {other:?} as a title's")),
        }
    }

    /// The walks by a kind for which the original has no filter: those of the trailers that are of the kind.
    fn hold_other_kinds(&self, body: &[u8], start: Cursor, trailers: &[Trailer], are: &[Attribution]) -> Found<()> {
        type Is = fn(&Attribution) -> bool;
        let kinds: [(u32, Is); 3] = [
            (ACKED_BY, |token| token.acked_by),
            (REVIEWED_BY, |token| token.reviewed_by),
            (TESTED_BY, |token| token.tested_by),
        ];
        for (kind, is) in kinds {
            let walk = self.walk(body, start, kind)?;
            let of_kind = trailers.iter().zip(are).filter(|(_, token)| is(token));
            if !of_kind.map(|(trailer, _)| trailer).eq(&walk) {
                return broke(format!("of kind {kind} walks {walk:?} among {trailers:?}"));
            }
        }
        Ok(())
    }

    /// The listing from a cursor: what the archive's steps from there give.
    fn hold_listing(&self, body: &[u8], from: Cursor) -> Found<()> {
        let steps = listing::stepped(body, from, |cursor, out, result| {
            archive::next_trailer(body, cursor, ALL, out, result)
        });
        listing::hold(&steps, |table, out, result| {
            (self.list_from)(body, from, table, out, result)
        })
        .map_err(NoReading::Broke)
    }

    fn title_and_body(&self, message: &[u8]) -> Found<(usize, Option<usize>)> {
        let told = told(|result| (self.title_and_body)(message, result))?;
        match (told.code, told.values()) {
            (OK, &[title_end]) => Ok((title_end, None)),
            (OK, &[title_end, body_start]) => Ok((title_end, Some(body_start))),
            _ => told.broke(),
        }
    }

    fn block_start(&self, body: &[u8]) -> Found<(usize, Ending)> {
        let told = told(|result| (self.block_start)(body, result))?;
        match (told.code, told.values()) {
            (OK, &[start, number]) => Ok((start, ending(number)?)),
            _ => told.broke(),
        }
    }

    fn cursor_at(&self, input: &[u8], at: usize) -> Found<Cursor> {
        cursor(|result| (self.cursor_at)(input, at, result))
    }

    /// At the end of a walk its number must be that of the body's end.
    fn step(&self, body: &[u8], from: Cursor, kind: u32) -> Found<Option<Trailer>> {
        let (told, written) = asked(2, |out, result| (self.next_trailer)(body, from, kind, out, result))?;
        match (told.code, told.values()) {
            (OK, &[at, line]) if at == body.len() && from.moved_on(body, at).line == line => Ok(None),
            (OK, &[start, end, held, from, to, next, number, line, next_line]) => Ok(Some(Trailer {
                token: part(body, start, end)?,
                value: value(body, [held, from, to], written)?,
                next,
                ending: ending(number)?,
                line,
                next_line,
            })),
            _ => told.broke(),
        }
    }

    fn walk(&self, body: &[u8], start: Cursor, kind: u32) -> Found<Vec<Trailer>> {
        let mut trailers = Vec::new();
        let mut cursor = start;
        while let Some(trailer) = self.step(body, cursor, kind)? {
            cursor = Cursor {
                at: part(body, cursor.at + 1, trailer.next)?.end, // so the walk ends
                line: trailer.next_line,
            };
            trailers.push(trailer);
        }
        Ok(trailers)
    }

    fn filtered(&self, body: &[u8], start: Cursor) -> Found<[Vec<Trailer>; 5]> {
        let mut walks = array::from_fn(|_| Vec::new());
        for (walk, filter) in walks.iter_mut().zip(FILTERS) {
            *walk = self.walk(body, start, kind_of(filter))?;
        }
        Ok(walks)
    }

    /// The lookup does not say where a walk goes on; a step from the token on does.
    fn find(&self, body: &[u8], name: &[u8]) -> Found<Option<Trailer>> {
        let (told, written) = asked(2, |out, result| (self.find_trailer)(body, name, out, result))?;
        match (told.code, told.values()) {
            (OK, &[]) => Ok(None),
            (OK, &[start, end, held, from, to, number, line]) => {
                let step = self.step(body, Cursor { at: start, line }, ALL)?;
                let (next, next_line) = step.map_or((start, line), |trailer| (trailer.next, trailer.next_line));
                Ok(Some(Trailer {
                    token: part(body, start, end)?,
                    value: value(body, [held, from, to], written)?,
                    next,
                    ending: ending(number)?,
                    line,
                    next_line,
                }))
            }
            _ => told.broke(),
        }
    }

    fn block_step(&self, body: &[u8], at: usize, start: usize) -> Found<Option<(Part, Part)>> {
        let told = told(|result| (self.next_block)(body, at, start, result))?;
        match (told.code, told.values()) {
            (OK, &[at, start]) if at == body.len() && start == body.len() => Ok(None),
            (OK, &[message_end, end, at_then, start_then]) if at_then == end && start_then == end => {
                Ok(Some((part(body, at, message_end)?, part(body, message_end, end)?)))
            }
            _ => told.broke(),
        }
    }

    /// The trailers of a block are read by themselves; the port counts the lines above.
    fn blocks(&self, body: &[u8], block_start: usize) -> Found<Vec<Block>> {
        let mut blocks = Vec::new();
        let (mut at, mut start) = (0, block_start);
        let mut lines = 0;
        while let Some((message, trailer_part)) = self.block_step(body, at, start)? {
            let by_itself = self.walk(trailer_part.of(body), Cursor::FRONT, ALL)?;
            at = part(body, at + 1, trailer_part.end)?.end; // so the walk ends
            start = at;
            let above = lines + self.lfs(message.of(body))?;
            lines = above + self.lfs(trailer_part.of(body))?;
            blocks.push(Block {
                message,
                trailer_part,
                trailers: by_itself
                    .into_iter()
                    .map(|trailer| trailer.moved(trailer_part.start, above))
                    .collect(),
            });
        }
        Ok(blocks)
    }

    fn lfs(&self, part: &[u8]) -> Found<usize> {
        Ok(self.cursor_at(part, part.len())?.line - 1)
    }

    /// Every kind is asked for; those that the original has no question for follow from the others.
    fn attribution(&self, input: &[u8], token: Part) -> Found<Attribution> {
        let is = |kind| self.is_of_kind(input, token, kind);
        let attribution = Attribution {
            signed_off_by: is(SIGNED_OFF_BY)?,
            co_authored_by: is(CO_AUTHORED_BY)?,
            assisted_by: is(ASSISTED_BY)?,
            acked_by: is(ACKED_BY)?,
            reviewed_by: is(REVIEWED_BY)?,
            tested_by: is(TESTED_BY)?,
            attribution: is(ATTRIBUTION)?,
        };
        let author = attribution.signed_off_by || attribution.co_authored_by;
        if is(AUTHOR)? != author || !is(ALL)? {
            return broke(format!(
                "{attribution:?}, but of the kinds author {author} and all {}",
                is(ALL)?
            ));
        }
        Ok(attribution)
    }

    fn is_of_kind(&self, input: &[u8], token: Part, kind: u32) -> Found<bool> {
        let told = told(|result| (self.is_of_kind)(input, token.start, token.end, kind, result))?;
        match (told.code, told.values()) {
            (OK, &[answer @ (0 | 1)]) => Ok(answer == 1),
            _ => told.broke(),
        }
    }

    /// Each call, with arguments that fit any input.
    fn each(
        &self,
        input: &[u8],
        mut visit: impl FnMut(&dyn Fn(&mut [u8], &mut [usize]) -> u32) -> Found<()>,
    ) -> Found<()> {
        visit(&|_, result| (self.title_and_body)(input, result))?;
        visit(&|out, result| (self.summary)(input, out, result))?;
        visit(&|out, result| (self.message_summary)(input, out, result))?;
        visit(&|_, result| (self.block_start)(input, result))?;
        visit(&|_, result| (self.message_trailers)(input, result))?;
        visit(&|_, result| (self.body_trailers)(input, result))?;
        visit(&|_, result| (self.cursor_at)(input, 0, result))?;
        visit(&|out, result| (self.next_trailer)(input, Cursor::FRONT, ALL, out, result))?;
        visit(&|out, result| (self.find_trailer)(input, b"a", out, result))?;
        visit(&|out, result| (self.list_from)(input, Cursor::FRONT, &mut [], out, result))?;
        visit(&|_, result| (self.next_block)(input, 0, 0, result))?;
        visit(&|_, result| (self.is_of_kind)(input, 0, 0, ALL, result))
    }

    fn refuse_all(&self, input: &[u8]) -> Found<()> {
        self.each(input, |call| refused(TOO_LONG, call))?;
        refused(TOO_LONG, |out, result| (self.find_trailer)(b"", input, out, result))
    }

    fn refuse_short_results(&self, input: &[u8]) -> Found<()> {
        self.each(input, |call| {
            for len in [0, RESULT_LEN - 1] {
                let mut out = [FILL; 9];
                let mut result = [KEPT; RESULT_LEN];
                let code = call(&mut out, &mut result[..len]);
                if code != SHORT_RESULT || out != [FILL; 9] || result != [KEPT; RESULT_LEN] {
                    return broke(format!("with a result of {len}: {code}, {out:?}, {result:?}"));
                }
            }
            Ok(())
        })
    }

    /// Places that do not fit, numbers of lines that do not, and numbers that are no kind. The limit goes before a bad place, the kind before both.
    fn refuse_bad_places(&self, input: &[u8]) -> Found<()> {
        let len = input.len();
        let code = if len > LIMIT { TOO_LONG } else { BAD_PLACE };
        let bad = [
            (len + 1, 1),
            (usize::MAX, 1),
            (0, 0),
            (0, 2),
            (len / 2, 0),
            (len / 2, len / 2 + 2),
            (len, 0),
            (len, len + 2),
            (len, usize::MAX),
            (usize::MAX, usize::MAX),
        ];
        for (at, line) in bad {
            refused(code, |out, result| {
                (self.list_from)(input, Cursor { at, line }, &mut [], out, result)
            })?;
            for kind in [ALL, AUTHOR] {
                refused(code, |out, result| {
                    (self.next_trailer)(input, Cursor { at, line }, kind, out, result)
                })?;
            }
        }
        for at in [len + 1, usize::MAX] {
            refused(code, |_, result| (self.cursor_at)(input, at, result))?;
        }
        for (at, start) in [
            (len + 1, 0),
            (0, len + 1),
            (len + 1, len + 1),
            (usize::MAX, len),
            (len, usize::MAX),
        ] {
            refused(code, |_, result| (self.next_block)(input, at, start, result))?;
        }
        for (start, end) in [
            (0, len + 1),
            (len + 1, len + 1),
            (1, 0),
            (len + 1, len),
            (usize::MAX, 0),
            (0, usize::MAX),
        ] {
            refused(code, |_, result| (self.is_of_kind)(input, start, end, ALL, result))?;
        }
        for kind in [AUTHOR + 1, NO_KIND, u32::MAX] {
            for at in [0, len + 1] {
                refused(NO_KIND, |out, result| {
                    (self.next_trailer)(input, Cursor { at, line: 0 }, kind, out, result)
                })?;
                refused(NO_KIND, |_, result| (self.is_of_kind)(input, at, at, kind, result))?;
            }
        }
        Ok(())
    }
}

fn kind_of(filter: Filter) -> u32 {
    match filter {
        Filter::SignedOffBy => SIGNED_OFF_BY,
        Filter::CoAuthoredBy => CO_AUTHORED_BY,
        Filter::AssistedBy => ASSISTED_BY,
        Filter::Attributions => ATTRIBUTION,
        Filter::Authors => AUTHOR,
    }
}

/// What stands in a result and in a buffer before a call.
const KEPT: usize = usize::MAX - 0x5a5a;
const FILL: u8 = 0xa5;

/// What a call told: its code, how many values it has, and its result.
#[derive(Clone, Copy, Debug, PartialEq, Eq)]
struct Told {
    code: u32,
    count: usize,
    result: [usize; RESULT_LEN],
}

impl Told {
    fn values(&self) -> &[usize] {
        &self.result[1..=self.count]
    }

    fn broke<T>(&self) -> Found<T> {
        broke(format!("code {} with values {:?}", self.code, self.values()))
    }

    /// How many bytes were written for the value whose place is the three values from `place` on.
    fn written(&self, place: usize) -> usize {
        match self.values().get(place..place + 3) {
            Some(&[1, _, end]) => end,
            _ => 0,
        }
    }
}

fn broke<T>(how: String) -> Found<T> {
    Err(NoReading::Broke(how))
}

/// One call. Entries of the result behind the values must be kept.
fn told(call: impl FnOnce(&mut [usize]) -> u32) -> Found<Told> {
    let mut result = [KEPT; RESULT_LEN];
    let code = call(&mut result);
    let count = result[0];
    if count >= RESULT_LEN || result[1 + count..].iter().any(|&entry| entry != KEPT) {
        return broke(format!("code {code} with the result {result:?}"));
    }
    Ok(Told { code, count, result })
}

/// One call that answers a cursor.
fn cursor(call: impl FnOnce(&mut [usize]) -> u32) -> Found<Cursor> {
    let told = told(call)?;
    match (told.code, told.values()) {
        (OK, &[at, line]) => Ok(Cursor { at, line }),
        _ => told.broke(),
    }
}

/// Asks for each of these.
fn all<T, A>(of: &[T], ask: impl FnMut(&T) -> Found<A>) -> Found<Vec<A>> {
    of.iter().map(ask).collect()
}

/// A call that writes, asked with every room that matters: what it told and what it wrote. The place of its value is the
/// three values from `place` on.
fn asked(place: usize, call: impl Fn(&mut [u8], &mut [usize]) -> u32) -> Found<(Told, Vec<u8>)> {
    let said = ask(|out| match told(|result| call(out, result)) {
        Ok(told) if told.code == NO_ROOM && told.count == 1 => Said::NoRoom { needed: told.result[1] },
        told => Said::Answer {
            written: told.as_ref().map_or(0, |told| told.written(place)),
            answer: told,
        },
    });
    let (told, written) = said.map_err(NoReading::Broke)?;
    Ok((told?, written))
}

/// A call that must refuse: no values, and nothing written.
fn refused(code: u32, call: impl Fn(&mut [u8], &mut [usize]) -> u32) -> Found<()> {
    let mut out = [FILL; 9];
    let told = told(|result| call(&mut out, result))?;
    if told.code != code || told.count != 0 || out != [FILL; 9] {
        return broke(format!("{told:?} and {out:?} where code {code} is due"));
    }
    Ok(())
}

/// The value of a call that answers nothing else.
fn value_of(input: &[u8], call: impl Fn(&mut [u8], &mut [usize]) -> u32) -> Found<Value> {
    let (told, written) = asked(0, call)?;
    match (told.code, told.values()) {
        (OK, &[held, start, end]) => value(input, [held, start, end], written),
        _ => told.broke(),
    }
}

fn value(input: &[u8], place: [usize; 3], written: Vec<u8>) -> Found<Value> {
    match place {
        [0, start, end] => {
            let part = part(input, start, end)?;
            Ok(if start == end { Value::Empty } else { Value::Part(part) })
        }
        [1, 0, end] if end == written.len() => Ok(Value::Written(written)),
        _ => broke(format!("a value at {place:?}")),
    }
}

fn ending(number: usize) -> Found<Ending> {
    match number {
        LF => Ok(Ending::Lf),
        CR_LF => Ok(Ending::CrLf),
        CR => Ok(Ending::Cr),
        NO_ENDING => Ok(Ending::None),
        _ => broke(format!("an ending of the number {number}")),
    }
}

fn part(input: &[u8], start: usize, end: usize) -> Found<Part> {
    if start <= end && end <= input.len() {
        return Ok(Part { start, end });
    }
    broke(format!("a part from {start} to {end} of {}", input.len()))
}

#[cfg(test)]
mod tests {
    use super::*;
    use crate::{
        answers::difference,
        archive::{RECORD_LEN, SHORT_TABLE},
        inputs::Plan,
        original,
        search::compare,
    };

    const SHORT: Plan = Plan {
        seed: 1,
        deeper: -2,
        messages: 1_000,
        long: false,
    };

    /// The small input on which calls with a planted fault are caught, and the field that shows it.
    fn caught(faulty: &Calls) -> (Vec<u8>, &'static str) {
        let outcome = compare(&SHORT, original::answer, |input| faulty.answer(input));
        let small = outcome.found.expect("the fault is found").shrunk;
        let difference = difference(&original::answer(&small), &faulty.answer(&small));
        (small, difference.expect("the fault is there").field)
    }

    #[test]
    fn the_archive_agrees_with_the_original() {
        assert_eq!(compare(&SHORT, original::answer, answer).found, None);
    }

    #[test]
    fn a_block_start_that_is_off_by_one_is_caught() {
        fn one_more(body: &[u8], result: &mut [usize]) -> u32 {
            let code = archive::block_start(body, result);
            if code == OK && result[1] < body.len() {
                result[1] += 1;
            }
            code
        }
        let faulty = Calls {
            block_start: one_more,
            ..ARCHIVE
        };
        assert_eq!(caught(&faulty), (b"a:".to_vec(), "block_start"));
    }

    #[test]
    fn a_dropped_fold_is_caught() {
        /// Answers by the rules of a buffer, but only up to the first fold.
        fn first_line_only(body: &[u8], from: Cursor, kind: u32, out: &mut [u8], result: &mut [usize]) -> u32 {
            let mut all = vec![0; body.len()];
            let code = archive::next_trailer(body, from, kind, &mut all, result);
            if code != OK || result[0] != 9 || result[3] == 0 {
                return code;
            }
            let len = all[..result[5]]
                .iter()
                .position(|&byte| byte == b' ')
                .unwrap_or(result[5]);
            if out.len() < len {
                result.fill(KEPT);
                result[..2].copy_from_slice(&[1, len]);
                return NO_ROOM;
            }
            out[..len].copy_from_slice(&all[..len]);
            result[5] = len;
            OK
        }
        let faulty = Calls {
            next_trailer: first_line_only,
            ..ARCHIVE
        };
        assert_eq!(caught(&faulty), (b"a:a\n a".to_vec(), "trailers"));
    }

    #[test]
    fn cr_lf_that_is_taken_for_lf_is_caught() {
        fn unix_only(body: &[u8], from: Cursor, kind: u32, out: &mut [u8], result: &mut [usize]) -> u32 {
            let code = archive::next_trailer(body, from, kind, out, result);
            if code == OK && result[0] == 9 && result[7] == CR_LF {
                result[7] = LF;
            }
            code
        }
        let faulty = Calls {
            next_trailer: unix_only,
            ..ARCHIVE
        };
        assert_eq!(caught(&faulty), (b"a:\r\n".to_vec(), "trailers"));
    }

    #[test]
    fn the_trailer_line_s_ending_of_a_folded_trailer_is_caught() {
        fn first_line_s(body: &[u8], name: &[u8], out: &mut [u8], result: &mut [usize]) -> u32 {
            let code = archive::find_trailer(body, name, out, result);
            if code == OK && result[0] == 7 {
                let line = body[result[1]..].split_inclusive(|&byte| byte == b'\n').next();
                result[6] = match line.unwrap_or_default() {
                    [.., b'\r', b'\n'] => CR_LF,
                    [.., b'\n'] => LF,
                    _ => result[6],
                };
            }
            code
        }
        let faulty = Calls {
            find_trailer: first_line_s,
            ..ARCHIVE
        };
        assert_eq!(caught(&faulty), (b"a:\n a".to_vec(), "found"));
    }

    #[test]
    fn a_blank_line_s_ending_is_caught() {
        fn of_the_last_line(body: &[u8], result: &mut [usize]) -> u32 {
            let code = archive::block_start(body, result);
            if code == OK && body.ends_with(b"\n\n") {
                result[2] = LF;
            }
            code
        }
        let faulty = Calls {
            block_start: of_the_last_line,
            ..ARCHIVE
        };
        assert_eq!(caught(&faulty), (b"\n\n".to_vec(), "ending"));
    }

    #[test]
    fn a_lookup_by_exact_case_is_caught() {
        fn exact(body: &[u8], name: &[u8], out: &mut [u8], result: &mut [usize]) -> u32 {
            let code = archive::find_trailer(body, name, out, result);
            if code == OK && result[0] == 7 && body[result[1]..result[2]] != *name {
                result.fill(KEPT);
                result[0] = 0;
            }
            code
        }
        let faulty = Calls {
            find_trailer: exact,
            ..ARCHIVE
        };
        assert_eq!(caught(&faulty), (b"a:".to_vec(), "found"));
    }

    #[test]
    fn a_folded_line_that_is_not_counted_is_caught() {
        fn one_line_each(body: &[u8], from: Cursor, kind: u32, out: &mut [u8], result: &mut [usize]) -> u32 {
            let code = archive::next_trailer(body, from, kind, out, result);
            if code == OK && result[0] == 9 && result[9] > result[8] {
                result[9] = result[8] + 1;
            }
            code
        }
        let faulty = Calls {
            next_trailer: one_line_each,
            ..ARCHIVE
        };
        assert_eq!(caught(&faulty), (b"a:\n a\n".to_vec(), "trailers"));
    }

    #[test]
    fn a_title_that_is_not_counted_is_caught() {
        fn of_the_body(message: &[u8], result: &mut [usize]) -> u32 {
            let code = archive::message_trailers(message, result);
            if code == OK && result[2] > 2 {
                result[2] -= 2;
            }
            code
        }
        let faulty = Calls {
            message_trailers: of_the_body,
            ..ARCHIVE
        };
        assert_eq!(caught(&faulty), (b"\n\n".to_vec(), "message_walk_start"));
    }

    #[test]
    fn a_lookup_that_counts_from_the_block_is_caught() {
        fn of_the_block(body: &[u8], name: &[u8], out: &mut [u8], result: &mut [usize]) -> u32 {
            let code = archive::find_trailer(body, name, out, result);
            if code == OK && result[0] == 7 {
                let mut start = [KEPT; RESULT_LEN];
                archive::body_trailers(body, &mut start);
                result[7] -= start[2] - 1;
            }
            code
        }
        let faulty = Calls {
            find_trailer: of_the_block,
            ..ARCHIVE
        };
        assert_eq!(caught(&faulty), (b"\n\n\na:".to_vec(), "found"));
    }

    #[test]
    fn a_cr_alone_that_is_counted_is_caught() {
        fn counts_crs(input: &[u8], at: usize, result: &mut [usize]) -> u32 {
            let code = archive::cursor_at(input, at, result);
            if code == OK {
                let alone = |pair: &&[u8]| pair[0] == b'\r' && pair[1] != b'\n';
                result[2] += input[..at].windows(2).filter(alone).count();
            }
            code
        }
        let faulty = Calls {
            cursor_at: counts_crs,
            ..ARCHIVE
        };
        assert_eq!(caught(&faulty), (b"\ra".to_vec(), "cursors"));
    }

    #[test]
    fn a_number_that_is_forgiven_is_caught() {
        fn forgives(body: &[u8], from: Cursor, kind: u32, out: &mut [u8], result: &mut [usize]) -> u32 {
            let line = from.line.max(1);
            archive::next_trailer(body, Cursor { line, ..from }, kind, out, result)
        }
        let faulty = Calls {
            next_trailer: forgives,
            ..ARCHIVE
        };
        assert_eq!(caught(&faulty), (Vec::new(), "refusal"));
    }

    #[test]
    fn a_kind_for_which_the_original_has_no_filter_is_held_too() {
        fn tests_nothing(body: &[u8], from: Cursor, kind: u32, out: &mut [u8], result: &mut [usize]) -> u32 {
            archive::next_trailer(body, from, if kind == TESTED_BY { ALL } else { kind }, out, result)
        }
        let faulty = Calls {
            next_trailer: tests_nothing,
            ..ARCHIVE
        };
        assert_eq!(caught(&faulty), (b"a:".to_vec(), "refusal"));
    }

    #[test]
    fn a_listed_place_that_counts_from_its_own_value_is_caught() {
        fn from_its_own(input: &[u8], from: Cursor, table: &mut [usize], out: &mut [u8], result: &mut [usize]) -> u32 {
            let code = archive::list_from(input, from, table, out, result);
            if code == OK {
                for record in table.chunks_mut(RECORD_LEN).take(result[1]) {
                    if let [_, _, 1, start, end, ..] = record {
                        (*start, *end) = (0, *end - *start);
                    }
                }
            }
            code
        }
        let faulty = Calls {
            list_from: from_its_own,
            ..ARCHIVE
        };
        assert_eq!(caught(&faulty), (b"a:\n a\na:\n a".to_vec(), "refusal"));
    }

    #[test]
    fn a_listing_that_stops_at_the_table_s_end_is_caught() {
        fn what_fits(input: &[u8], from: Cursor, table: &mut [usize], out: &mut [u8], result: &mut [usize]) -> u32 {
            let code = archive::list_from(input, from, table, out, result);
            if code == SHORT_TABLE {
                result[1] = table.len() / RECORD_LEN;
                return OK;
            }
            code
        }
        let faulty = Calls {
            list_from: what_fits,
            ..ARCHIVE
        };
        assert_eq!(caught(&faulty), (b"a:".to_vec(), "refusal"));
    }

    #[test]
    fn a_refusal_that_writes_is_caught() {
        fn spills(message: &[u8], out: &mut [u8], result: &mut [usize]) -> u32 {
            let code = archive::message_summary(message, out, result);
            if code == NO_ROOM {
                out.fill(b' ');
            }
            code
        }
        let faulty = Calls {
            message_summary: spills,
            ..ARCHIVE
        };
        assert_eq!(caught(&faulty), (b"a\na".to_vec(), "refusal"));
    }

    #[test]
    fn a_result_that_is_not_kept_is_caught() {
        fn clears(body: &[u8], result: &mut [usize]) -> u32 {
            let code = archive::block_start(body, result);
            if code == OK {
                result[3..].fill(0);
            }
            code
        }
        let faulty = Calls {
            block_start: clears,
            ..ARCHIVE
        };
        assert_eq!(caught(&faulty), (Vec::new(), "refusal"));
    }

    #[test]
    fn a_bad_place_that_is_forgiven_is_caught() {
        fn forgives(body: &[u8], at: usize, start: usize, result: &mut [usize]) -> u32 {
            archive::next_block(body, at, start.min(body.len()), result)
        }
        let faulty = Calls {
            next_block: forgives,
            ..ARCHIVE
        };
        assert_eq!(caught(&faulty), (Vec::new(), "refusal"));
    }

    #[test]
    fn a_limit_that_is_forgotten_is_caught() {
        fn reads_on(message: &[u8], result: &mut [usize]) -> u32 {
            archive::title_and_body(&message[..message.len().min(LIMIT)], result)
        }
        let faulty = Calls {
            title_and_body: reads_on,
            ..ARCHIVE
        };
        let too_long = vec![b'a'; LIMIT + 1];
        assert_eq!(answer(&too_long), Err(NoReading::Refused(1)));
        assert!(matches!(faulty.answer(&too_long), Err(NoReading::Broke(_))));
    }
}
