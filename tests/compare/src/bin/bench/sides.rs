//! The same questions to the original and to the port. Each gives one number made of everything that it answered, so
//! that no answer is left unread and the two can be compared. None is inlined: a question costs a call on both sides.

/// Takes a part of an answer into the number.
pub fn taken(sum: u64, part: &[u8]) -> u64 {
    let last = part.last().map_or(0, |&byte| u64::from(byte));
    sum.wrapping_mul(31)
        .wrapping_add(part.len() as u64)
        .wrapping_add(last << 32)
}

pub mod theirs {
    use super::taken;
    use original::{
        bstr::ByteSlice,
        commit::{
            message::{
                body::{TrailerRef, Trailers},
                BodyRef,
            },
            MessageRef,
        },
        CommitRef,
    };

    #[inline(never)]
    pub fn title_and_body(message: &[u8]) -> u64 {
        let split = MessageRef::from_bytes(message);
        taken(split.title.len() as u64, split.body.map_or(b"", |body| body))
    }

    #[inline(never)]
    pub fn summary(title: &[u8]) -> u64 {
        let message = MessageRef {
            title: title.as_bstr(),
            body: None,
        };
        taken(0, &message.summary())
    }

    #[inline(never)]
    pub fn message_summary(message: &[u8]) -> u64 {
        taken(0, &commit(message).message_summary())
    }

    #[inline(never)]
    pub fn message_trailers(message: &[u8]) -> u64 {
        walk(commit(message).message_trailers())
    }

    #[inline(never)]
    pub fn block_start(body: &[u8]) -> u64 {
        BodyRef::from_bytes(body).without_trailer().len() as u64
    }

    #[inline(never)]
    pub fn walk(trailers: Trailers<'_>) -> u64 {
        sum(trailers)
    }

    #[inline(never)]
    pub fn walk_signed_off_by(trailers: Trailers<'_>) -> u64 {
        sum(trailers.signed_off_by())
    }

    fn sum<'a>(trailers: impl Iterator<Item = TrailerRef<'a>>) -> u64 {
        trailers.fold(0, |sum, trailer| taken(taken(sum, trailer.token), &trailer.value))
    }

    #[inline(never)]
    pub fn blocks(body: BodyRef<'_>) -> u64 {
        body.message_blocks().fold(0, |sum, block| {
            taken(taken(sum, block.message), original::rest(&block.trailers()))
        })
    }

    #[inline(never)]
    pub fn find(body: &[u8], name: &[u8]) -> u64 {
        let found = BodyRef::from_bytes(body)
            .trailers()
            .filter(|trailer| trailer.token.eq_ignore_ascii_case(name))
            .last();
        found.map_or(0, |trailer| taken(taken(0, trailer.token), &trailer.value))
    }

    #[inline(never)]
    pub fn attributions(trailers: &[TrailerRef<'_>]) -> u64 {
        trailers.iter().map(|trailer| u64::from(trailer.is_attribution())).sum()
    }

    /// The seven counts and the messages without trailers, by walks of the messages.
    #[inline(never)]
    pub fn report(messages: &[&[u8]]) -> u64 {
        let mut report = [0; 8];
        for message in messages {
            let mut trailers = commit(message).message_trailers().peekable();
            report[7] += u64::from(trailers.peek().is_none());
            for trailer in trailers {
                let of = |token: &[u8]| trailer.token.eq_ignore_ascii_case(token);
                report[SIX.iter().position(|token| of(token)).unwrap_or(6)] += 1;
            }
        }
        report
            .iter()
            .fold(0, |sum: u64, number| sum.wrapping_mul(31).wrapping_add(*number))
    }

    const SIX: [&[u8]; 6] = [
        b"Signed-off-by",
        b"Co-authored-by",
        b"Assisted-by",
        b"Acked-by",
        b"Reviewed-by",
        b"Tested-by",
    ];

    fn commit(message: &[u8]) -> CommitRef<'_> {
        CommitRef {
            message: message.as_bstr(),
        }
    }
}

pub mod ours {
    use super::taken;
    use compare::{
        answers::{Cursor, Part},
        archive::{self, ALL, ATTRIBUTION, OK, RESULT_LEN, SIGNED_OFF_BY},
    };

    #[inline(never)]
    pub fn title_and_body(message: &[u8]) -> u64 {
        let mut result = [0; RESULT_LEN];
        assert_eq!(archive::title_and_body(message, &mut result), OK);
        let body = if result[0] == 2 { &message[result[2]..] } else { b"" };
        taken(result[1] as u64, body)
    }

    #[inline(never)]
    pub fn summary(title: &[u8], out: &mut [u8]) -> u64 {
        let mut result = [0; RESULT_LEN];
        assert_eq!(archive::summary(title, out, &mut result), OK);
        taken(0, at(title, out, &result[1..]))
    }

    #[inline(never)]
    pub fn message_summary(message: &[u8], out: &mut [u8]) -> u64 {
        let mut result = [0; RESULT_LEN];
        assert_eq!(archive::message_summary(message, out, &mut result), OK);
        taken(0, at(message, out, &result[1..]))
    }

    #[inline(never)]
    pub fn message_trailers(message: &[u8], out: &mut [u8]) -> u64 {
        let mut result = [0; RESULT_LEN];
        assert_eq!(archive::message_trailers(message, &mut result), OK);
        walk(message, cursor(result[1], result[2]), out)
    }

    #[inline(never)]
    pub fn block_start(body: &[u8]) -> u64 {
        let mut result = [0; RESULT_LEN];
        assert_eq!(archive::block_start(body, &mut result), OK);
        result[1] as u64
    }

    #[inline(never)]
    pub fn walk(body: &[u8], start: Cursor, out: &mut [u8]) -> u64 {
        sum(body, start, ALL, out)
    }

    #[inline(never)]
    pub fn walk_signed_off_by(body: &[u8], start: Cursor, out: &mut [u8]) -> u64 {
        sum(body, start, SIGNED_OFF_BY, out)
    }

    /// How many trailers a message has, all of them read.
    #[cfg(feature = "libgit2")]
    #[inline(never)]
    pub fn message_trailers_counted(message: &[u8], out: &mut [u8]) -> u64 {
        let mut result = [0; RESULT_LEN];
        assert_eq!(archive::message_trailers(message, &mut result), OK);
        let mut from = cursor(result[1], result[2]);
        let mut count = 0;
        loop {
            assert_eq!(archive::next_trailer(message, from, ALL, out, &mut result), OK);
            if result[0] == 2 {
                return count;
            }
            from = cursor(result[6], result[9]);
            count += 1;
        }
    }

    fn cursor(at: usize, line: usize) -> Cursor {
        Cursor { at, line }
    }

    fn sum(body: &[u8], start: Cursor, kind: u32, out: &mut [u8]) -> u64 {
        let mut result = [0; RESULT_LEN];
        let mut from = start;
        let mut sum = 0;
        loop {
            assert_eq!(archive::next_trailer(body, from, kind, out, &mut result), OK);
            if result[0] == 2 {
                return sum;
            }
            sum = taken(taken(sum, &body[result[1]..result[2]]), at(body, out, &result[3..]));
            from = cursor(result[6], result[9]);
        }
    }

    #[inline(never)]
    pub fn blocks(body: &[u8], start: usize) -> u64 {
        let mut result = [0; RESULT_LEN];
        let (mut at, mut start) = (0, start);
        let mut sum = 0;
        loop {
            assert_eq!(archive::next_block(body, at, start, &mut result), OK);
            if result[0] == 2 {
                return sum;
            }
            sum = taken(taken(sum, &body[at..result[1]]), &body[result[1]..result[2]]);
            (at, start) = (result[3], result[4]);
        }
    }

    #[inline(never)]
    pub fn find(body: &[u8], name: &[u8], out: &mut [u8]) -> u64 {
        let mut result = [0; RESULT_LEN];
        assert_eq!(archive::find_trailer(body, name, out, &mut result), OK);
        if result[0] == 0 {
            return 0;
        }
        taken(taken(0, &body[result[1]..result[2]]), at(body, out, &result[3..]))
    }

    #[inline(never)]
    pub fn attributions(body: &[u8], tokens: &[Part]) -> u64 {
        let mut result = [0; RESULT_LEN];
        let mut sum = 0;
        for token in tokens {
            let code = archive::is_of_kind(body, token.start, token.end, ATTRIBUTION, &mut result);
            assert_eq!(code, OK);
            sum += result[1] as u64;
        }
        sum
    }

    /// A value at its place: which of the two holds it, its start and its end.
    pub fn at<'a>(input: &'a [u8], out: &'a [u8], place: &[usize]) -> &'a [u8] {
        let holder = if place[0] == 0 { input } else { out };
        &holder[place[1]..place[2]]
    }

    #[inline(never)]
    pub fn report(bundle: &[u8]) -> u64 {
        let mut result = [0; RESULT_LEN];
        assert_eq!(archive::bundle_report(bundle, &mut result), OK);
        let report = &result[1..9];
        report
            .iter()
            .fold(0, |sum: u64, &number| sum.wrapping_mul(31).wrapping_add(number as u64))
    }
}
