//! The port's archive beside the original.
//!
//!     live [--seed N] [--deeper N] [--messages N]
//!
//! `--deeper N` makes the exhaustive inputs N pieces longer than each alphabet's own depth; one more gives about six times
//! as many. `--messages N` asks for N random messages of each kind. Without options it is `--seed 1 --deeper -1 --messages
//! 20000`. Ends with 1 at the first input on which the two disagree. Then the second reading: the port on mails, the original on
//! these mails cut above their first divider.

use std::{cell::Cell, env, ops::ControlFlow, process::ExitCode};

use compare::{
    answers::{difference, Answer},
    divider,
    inputs::{Alphabet, Plan},
    original, ours, readings,
    search::{compare, shrink, Found},
};

fn main() -> ExitCode {
    let words: Vec<String> = env::args().skip(1).collect();
    let Some(plan) = plan(&words) else {
        eprintln!("live: [--seed N] [--deeper N] [--messages N]");
        return ExitCode::FAILURE;
    };
    let answers = Cell::new(0);
    let counted = |input: &[u8]| -> Answer {
        let answer = original::answer(input);
        answers.set(answers.get() + answer.as_ref().map_or(1, |reading| reading.answers()));
        answer
    };
    let outcome = compare(&plan, counted, ours::answer);
    for (kind, inputs) in &outcome.read {
        println!("{inputs:>12}  {kind}");
    }
    println!("{:>12}  inputs, {} answers", outcome.inputs(), answers.get());
    if let Some(found) = &outcome.found {
        tell(found);
        return ExitCode::FAILURE;
    }
    println!(
        "live: the port and the original agree on all of them (seed {})",
        plan.seed
    );
    second_reading(&plan)
}

/// The port in the second reading, beside the original on the cut message: of mails that are made of fewer inputs, and of all
/// short messages of hyphens and what may stand around them.
fn second_reading(plan: &Plan) -> ExitCode {
    let fewer = Plan {
        deeper: plan.deeper - 1,
        messages: plan.messages / 4,
        ..plan.clone()
    };
    let mut mails = 0;
    let mut parted = None;
    let mut read = |mail: &[u8]| {
        mails += 1;
        if readings::original(mail) == readings::ours(mail) {
            return ControlFlow::Continue(());
        }
        parted = Some(shrink(mail, |mail| readings::original(mail) != readings::ours(mail)));
        ControlFlow::Break(())
    };
    let _ = DIVIDERS
        .each(DIVIDERS.depth.saturating_add_signed(plan.deeper), &mut read)
        .is_continue()
        && fewer.each(&mut |_, input| read(&divider::mail(input))).is_continue();
    println!("{mails:>12}  mails in the second reading");
    match parted {
        None => {
            println!("live: in the second reading the port and the original on the cut message agree on all of them");
            ExitCode::SUCCESS
        }
        Some(mail) => {
            println!("live: they disagree in the second reading: {}", shown(&mail));
            println!("original: {:?}", readings::original(&mail));
            println!("port:     {:?}", readings::ours(&mail));
            ExitCode::FAILURE
        }
    }
}

/// Hyphens, and what may stand around them.
const DIVIDERS: Alphabet = Alphabet {
    rule: "dividers",
    pieces: &[b"-", b"---", b" ", b"\t", b"\r", b"\n", b"A:"],
    depth: 7,
};

fn plan(words: &[String]) -> Option<Plan> {
    let mut plan = Plan {
        seed: 1,
        deeper: -1,
        messages: 20_000,
        long: true,
    };
    for pair in words.chunks(2) {
        let [name, number] = pair else { return None };
        match name.as_str() {
            "--seed" => plan.seed = number.parse().ok()?,
            "--deeper" => plan.deeper = number.parse().ok()?,
            "--messages" => plan.messages = number.parse().ok()?,
            _ => return None,
        }
    }
    Some(plan)
}

/// The disagreement, on the input that was found and on a small one.
fn tell(found: &Found) {
    println!(
        "live: the port and the original disagree on an input of the kind: {}",
        found.kind
    );
    println!("input of {} bytes: {}", found.input.len(), shown(&found.input));
    println!("made small: {}", shown(&found.shrunk));
    if let Some(difference) = difference(&original::answer(&found.shrunk), &ours::answer(&found.shrunk)) {
        println!("field:      {}", difference.field);
        println!("original:   {}", difference.left);
        println!("port:       {}", difference.right);
    }
}

fn shown(input: &[u8]) -> String {
    const MOST: usize = 2_000;
    match input.get(..MOST) {
        Some(front) => format!("`{}` ..", front.escape_ascii()),
        None => format!("`{}`", input.escape_ascii()),
    }
}
