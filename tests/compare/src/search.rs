//! Reads the same inputs twice, stops at the first disagreement and makes its input small.

use std::ops::ControlFlow;

use crate::inputs::Plan;

/// An input on which two readers disagree.
#[derive(Clone, Debug, PartialEq, Eq)]
pub struct Found {
    /// The kind of the input that was found.
    pub kind: &'static str,
    pub input: Vec<u8>,
    /// The same disagreement, or another, on as small an input as `shrink` finds.
    pub shrunk: Vec<u8>,
}

/// What a comparison came to.
#[derive(Clone, Debug)]
pub struct Outcome {
    /// The inputs read, by kind, in the order of the plan.
    pub read: Vec<(&'static str, usize)>,
    pub found: Option<Found>,
}

impl Outcome {
    pub fn inputs(&self) -> usize {
        self.read.iter().map(|(_, inputs)| inputs).sum()
    }
}

/// Reads the inputs of a plan with both readers, up to the first on which `left` and `right` answer differently.
pub fn compare<A: PartialEq>(plan: &Plan, left: impl Fn(&[u8]) -> A, right: impl Fn(&[u8]) -> A) -> Outcome {
    let differ = |input: &[u8]| left(input) != right(input);
    let mut read: Vec<(&'static str, usize)> = Vec::new();
    let mut found = None;
    let _ = plan.each(&mut |kind, input| {
        match read.last_mut() {
            Some((last, inputs)) if *last == kind => *inputs += 1,
            _ => match read.iter_mut().find(|(known, _)| *known == kind) {
                Some((_, inputs)) => *inputs += 1,
                None => read.push((kind, 1)),
            },
        }
        if !differ(input) {
            return ControlFlow::Continue(());
        }
        found = Some(Found {
            kind,
            input: input.to_vec(),
            shrunk: shrink(input, differ),
        });
        ControlFlow::Break(())
    });
    Outcome { read, found }
}

/// Makes an input smaller as long as `fails` stays true of it: parts are taken out, large ones first, and what is left
/// is made of plainer bytes.
pub fn shrink(input: &[u8], fails: impl Fn(&[u8]) -> bool) -> Vec<u8> {
    let mut shrinking = Shrinking {
        small: input.to_vec(),
        budget: BUDGET,
        fails,
    };
    while shrinking.take_parts_out() | shrinking.make_plainer() {}
    shrinking.small
}

/// Bytes that shrinking may read in all. A long input that cannot be made shorter would use up any time.
const BUDGET: usize = 1 << 27;

/// The bytes that a shrunk input should be made of, the plainest first.
const PLAIN: &[u8] = b"aA:\n ";

struct Shrinking<F> {
    small: Vec<u8>,
    budget: usize,
    fails: F,
}

impl<F: Fn(&[u8]) -> bool> Shrinking<F> {
    fn take_parts_out(&mut self) -> bool {
        let mut changed = false;
        let mut size = self.small.len().div_ceil(2);
        while size > 0 {
            let mut at = 0;
            while at < self.small.len() && self.budget > 0 {
                let end = (at + size).min(self.small.len());
                if self.accepts([&self.small[..at], &self.small[end..]].concat()) {
                    changed = true;
                } else {
                    at = end;
                }
            }
            size /= 2;
        }
        changed
    }

    fn make_plainer(&mut self) -> bool {
        let mut changed = false;
        let mut at = 0;
        while at < self.small.len() && self.budget > 0 {
            let byte = self.small[at];
            changed |= PLAIN.iter().take_while(|&&plain| plain != byte).any(|&plain| {
                let mut other = self.small.clone();
                other[at] = plain;
                self.accepts(other)
            });
            at += 1;
        }
        changed
    }

    fn accepts(&mut self, other: Vec<u8>) -> bool {
        let cost = other.len() + 1;
        if cost > self.budget {
            self.budget = 0;
            return false;
        }
        self.budget -= cost;
        let fails = (self.fails)(&other);
        if fails {
            self.small = other;
        }
        fails
    }
}

#[cfg(test)]
mod tests {
    use super::*;
    use crate::{
        answers::{difference, Answer, Ending, Part, Reading, Trailer, Value, LIMIT},
        original,
    };

    const SHORT: Plan = Plan {
        seed: 1,
        deeper: -2,
        messages: 2_000,
        long: false,
    };

    /// The original with a fault planted in its answers.
    fn with_fault(fault: impl Fn(&[u8], &mut Reading)) -> impl Fn(&[u8]) -> Answer {
        move |input| {
            let mut answer = original::answer(input);
            if let Ok(reading) = &mut answer {
                fault(input, reading);
            }
            answer
        }
    }

    /// The original with a fault planted in what it sees: one byte is taken for another.
    fn that_takes(byte: u8, other: u8) -> impl Fn(&[u8]) -> Answer {
        move |input| {
            let seen: Vec<u8> = input.iter().map(|&one| if one == byte { other } else { one }).collect();
            original::answer(&seen)
        }
    }

    fn found(plan: &Plan, faulty: impl Fn(&[u8]) -> Answer) -> Vec<u8> {
        let outcome = compare(plan, original::answer, &faulty);
        let found = outcome.found.expect("the fault is found");
        assert!(difference(&original::answer(&found.shrunk), &faulty(&found.shrunk)).is_some());
        found.shrunk
    }

    #[test]
    fn the_original_agrees_with_itself() {
        let outcome = compare(&SHORT, original::answer, original::answer);
        assert_eq!(outcome.found, None);
        assert!(outcome.inputs() > 100_000);
    }

    #[test]
    fn a_dropped_fold_is_found() {
        fn first_line_only(input: &[u8], trailers: &mut [Trailer]) {
            for trailer in trailers {
                if let Value::Written(bytes) = &mut trailer.value {
                    let raw = &input[trailer.token.end..trailer.next];
                    let first = raw.split(|&byte| byte == b'\n').next().unwrap_or(raw);
                    bytes.truncate(first.trim_ascii().len().saturating_sub(1));
                }
            }
        }
        let shrunk = found(
            &SHORT,
            with_fault(|input, reading| first_line_only(input, &mut reading.trailers)),
        );
        assert_eq!(shrunk, b"a:\n a");
    }

    #[test]
    fn a_walk_that_stops_early_is_found() {
        let shrunk = found(&SHORT, with_fault(|_, reading| reading.trailers.truncate(1)));
        assert_eq!(shrunk, b"a:\na:");
    }

    #[test]
    fn an_ending_that_is_not_told_is_found() {
        let no_lone_cr = |_: &[u8], reading: &mut Reading| {
            for trailer in &mut reading.trailers {
                if trailer.ending == Ending::Cr {
                    trailer.ending = Ending::None;
                }
            }
        };
        assert_eq!(found(&SHORT, with_fault(no_lone_cr)), b"a:\r");
        let of_a_block_only = |input: &[u8], reading: &mut Reading| {
            if reading.block_start == input.len() {
                reading.ending = Ending::None;
            }
        };
        assert_eq!(found(&SHORT, with_fault(of_a_block_only)), b"a\n");
    }

    #[test]
    fn a_part_that_is_written_is_found() {
        let copies = |input: &[u8], reading: &mut Reading| {
            if let Value::Part(part) = reading.summary {
                reading.summary = Value::Written(part.of(input).to_vec());
            }
        };
        assert_eq!(found(&SHORT, with_fault(copies)), b"a");
    }

    #[test]
    fn an_unforgiven_boundary_is_found() {
        // Four others for one trailer in place of three.
        let lenient = |input: &[u8], reading: &mut Reading| {
            let mut lines = input.split_inclusive(|&byte| byte == b'\n');
            let first = lines.next().unwrap_or(b"");
            let others: Vec<&[u8]> = lines.collect();
            if first.starts_with(b"Signed-off-by: ") && others.len() == 4 && others.iter().all(|line| line[0] == b'x') {
                reading.block_start = 0;
            }
        };
        assert_eq!(found(&SHORT, with_fault(lenient)), b"Signed-off-by: \nx\nx\nx\nx");
    }

    #[test]
    fn bytes_taken_for_others_are_found() {
        assert_eq!(found(&SHORT, that_takes(b'\x0b', b' ')), b"a\x0b:");
        assert_eq!(found(&SHORT, that_takes(b'\x0c', b'\x01')), b"\x0c");
        assert_eq!(found(&SHORT, that_takes(b'_', b'-')), b"_:");
    }

    #[test]
    fn a_forgotten_white_space_is_found() {
        let keeps = |input: &[u8], reading: &mut Reading| {
            if input.ends_with(b"\xe2\x80\xaf") {
                let end = input.len();
                match &mut reading.message_summary {
                    Value::Part(part) => part.end = end,
                    Value::Empty => reading.message_summary = Value::Part(Part { start: end - 3, end }),
                    Value::Written(bytes) => bytes.extend(b"\xe2\x80\xaf"),
                }
            }
        };
        assert_eq!(found(&SHORT, with_fault(keeps)), b"\xe2\x80\xaf");
    }

    #[test]
    fn a_limit_that_is_one_too_low_is_found() {
        // Only lengths are compared, so that long inputs cost nothing.
        let plan = Plan {
            deeper: -12,
            messages: 0,
            long: true,
            ..SHORT
        };
        let outcome = compare(&plan, |input| input.len() > LIMIT, |input| input.len() >= LIMIT);
        let found = outcome.found.expect("the fault is found");
        assert_eq!(found.kind, "around the limit");
        assert_eq!(found.shrunk.len(), LIMIT);
    }

    #[test]
    fn shrinking_keeps_what_fails() {
        let fails = |input: &[u8]| input.contains(&b'x') && input.contains(&b'y');
        assert_eq!(shrink(b"aaaaxbbbbbbbybbbb", fails), b"xy");
        assert_eq!(shrink(b"zz", |input| input.len() == 2), b"aa");
    }
}
