//! Times the original and the port on the same inputs, in one run.
//!
//!     bench              a line for each call on each shape: nanoseconds of both, and how many times faster the port is
//!     bench --markdown   these ratios in tables, a row for each shape, and one for the headers of commit objects
//!     bench commits      the headers of commit objects alone
//!     bench divider      the end of a message above its divider alone; fails where it takes more than twice as long as a search
//!                        for the message's LFs
//!     bench additions    a trailer added to a message alone
//!     bench lines        the count of LFs beside libc's memchr alone
//!     bench feet         the foot of a mebibyte given whole, beside that of a kibibyte, alone
//!     bench lists        all trailers of typical messages alone: by steps, and in one call
//!
//! The mailbox call, which the original does not have, is timed by itself, on a mebibyte and on half of it.
//!
//! The two sides take turns; the figures are medians over the rounds. Before anything is timed, the two must agree in all
//! answers about every shape.

mod additions;
mod calls;
mod commits;
mod divider;
mod feet;
mod libc;
#[cfg(feature = "libgit2")]
mod libgit2;
mod lines;
mod lists;
mod mailbox;
mod night;
mod race;
mod shapes;
mod sides;

use std::{env, process::ExitCode};

use compare::{original, ours};

use crate::{
    calls::{of_body, of_message, Row},
    race::Race,
    shapes::Shape,
};

fn main() -> ExitCode {
    #[cfg(feature = "libgit2")]
    libgit2::ready();
    let words: Vec<String> = env::args().skip(1).collect();
    let print = match &words.iter().map(String::as_str).collect::<Vec<_>>()[..] {
        [] => plain,
        ["--markdown"] => markdown,
        ["commits"] => |_: &[Shape]| commit_table(),
        ["divider"] => return divider_table(),
        ["additions"] => |_: &[Shape]| addition_table(),
        ["lines"] => |_: &[Shape]| lines_table(),
        ["lists"] => |_: &[Shape]| lists_table(),
        ["feet"] => |_: &[Shape]| feet_table(),
        _ => {
            eprintln!("bench: no such option");
            return ExitCode::FAILURE;
        }
    };
    let shapes = shapes::all();
    for shape in &shapes {
        for input in [Some(&shape.message), shape.body.as_ref()].into_iter().flatten() {
            assert!(
                original::answer(input) == ours::answer(input),
                "{}: the two disagree",
                shape.name
            );
        }
    }
    print(&shapes);
    ExitCode::SUCCESS
}

fn plain(shapes: &[Shape]) {
    println!(
        "{:<34} {:<34} {:>12} {:>12} {:>8}",
        "call", "shape", "original ns", "ours ns", "ratio"
    );
    for shape in shapes {
        for Row { call, race } in of_message(shape).iter().chain(&of_body(shape)) {
            line(call, &shape.name, race);
        }
    }
    for commits::Row { header, call, race } in commits::rows() {
        line(&format!("commit object: {call}"), header, &race);
    }
    for (name, race) in lines::rows() {
        line("LFs counted, beside memchr", name, &race);
    }
    for (name, [_, Row { call, race }]) in lists::rows() {
        line(call, &name, &race);
    }
    line("foot, given whole, beside 1 KiB's", "1 MiB over a foot", &feet::whole());
    for (name, half, whole) in mailbox::rows() {
        println!(
            "{:<34} {name:<34} {:>12} {whole:>12.1} {:>8.2}",
            "mailbox, by half of it",
            "",
            whole / half
        );
    }
    for (name, [libc, memchr]) in divider::rows() {
        line("message end, beside a search", name, &libc);
        line("message end, beside the crate's", name, &memchr);
    }
    let (name, Row { call, race }) = night::report();
    line(call, &name, &race);
    for additions::Row { message, race } in additions::rows() {
        line("a trailer added, beside a copy", &message, &race);
    }
}

fn line(call: &str, shape: &str, race: &Race) {
    println!(
        "{call:<34} {shape:<34} {:>12.1} {:>12.1} {:>8.2}",
        race.original, race.ours, race.ratio
    );
}

fn markdown(shapes: &[Shape]) {
    table(calls::MESSAGE_CALLS, shapes, of_message);
    println!();
    table(calls::BODY_CALLS, shapes, of_body);
    println!("\n| mailbox | µs | by half of it |\n|---|---:|---:|");
    for (name, half, whole) in mailbox::rows() {
        println!("| {name} | {:.0} | {:.2} |", whole / 1_000.0, whole / half);
    }
    let (name, Row { call, race }) = night::report();
    println!("\n| shape | {call} |\n|---|---:|\n| {name} | {:.2} |", race.ratio);
    println!("\n`*` the port needs less than {CALL_NS} ns: this is what a call costs, and hardly anything is read.");
    commit_table();
    divider_table();
    addition_table();
    lines_table();
    lists_table();
    feet_table();
}

/// A trailer added: how many times as long as a copy of the message it takes.
fn addition_table() {
    println!("\n| message | copy, ns | a trailer added, ns | by the copy |\n|---|---:|---:|---:|");
    for additions::Row { message, race } in additions::rows() {
        println!(
            "| {message} | {:.0} | {:.0} | {:.2} |",
            race.original,
            race.ours,
            1.0 / race.ratio
        );
    }
}

/// Numbers from the top: how many times as long as memchr's pass over the text the count of its LFs takes.
fn lines_table() {
    println!("\n| 1 MiB of | memchr, µs | LFs counted, µs | times as long |\n|---|---:|---:|---:|");
    for (name, race) in lines::rows() {
        println!(
            "| {name} | {:.1} | {:.1} | {:.2} |",
            race.original / 1_000.0,
            race.ours / 1_000.0,
            1.0 / race.ratio
        );
    }
}

/// All trailers of typical messages, beside the original's walk: by steps, and in one call.
fn lists_table() {
    println!("\n| message | {} |", lists::CALLS.join(" | "));
    println!("|---|{}", "---:|".repeat(lists::CALLS.len()));
    for (name, rows) in lists::rows() {
        println!(
            "| {name} | {} |",
            rows.map(|row| format!("{:.2}", row.race.ratio)).join(" | ")
        );
    }
}

/// The foot of a mebibyte given whole: how many times as long as that of a kibibyte it takes.
fn feet_table() {
    let race = feet::whole();
    println!("\n| foot | 1 KiB whole, ns | 1 MiB whole, ns | times as long |\n|---|---:|---:|---:|");
    println!(
        "| five trailers | {:.0} | {:.0} | {:.2} |",
        race.original,
        race.ours,
        1.0 / race.ratio
    );
}

/// Headers of commit objects: how many times as long as a search for their LFs each call takes.
fn commit_table() {
    let rows = commits::rows();
    println!("\n| header of 1 MiB | {} |", commits::CALLS.join(" | "));
    println!("|---|{}", "---:|".repeat(commits::CALLS.len()));
    for rows in rows.chunks(commits::CALLS.len()) {
        let cells: Vec<String> = rows.iter().map(|row| format!("{:.2}", 1.0 / row.race.ratio)).collect();
        println!("| {} | {} |", rows[0].header, cells.join(" | "));
    }
}

/// Messages without a divider: how many times as long as a search for their LFs finding their end takes.
fn divider_table() -> ExitCode {
    println!("\n| 1 MiB without a divider | message end | message end, beside the crate's |\n|---|---:|---:|");
    let mut slow = false;
    for (name, races) in divider::rows() {
        let [libc, memchr] = races.map(|race| 1.0 / race.ratio);
        slow |= libc > 2.0;
        println!("| {name} | {libc:.2} | {memchr:.2} |");
    }
    ExitCode::from(u8::from(slow))
}

/// Below this time the cost of the call outweighs what it reads.
const CALL_NS: f64 = 30.0;

/// A row for each shape, a column for each call.
fn table(calls: &[&str], shapes: &[Shape], rows: fn(&Shape) -> Vec<Row>) {
    println!("| shape | {} |", calls.join(" | "));
    println!("|---|{}", "---:|".repeat(calls.len()));
    for shape in shapes {
        let rows = rows(shape);
        if !rows.is_empty() {
            let cells: Vec<String> = calls.iter().map(|call| cell(&rows, call)).collect();
            println!("| {} | {} |", shape.name, cells.join(" | "));
        }
    }
}

fn cell(rows: &[Row], call: &str) -> String {
    let Some(row) = rows.iter().find(|row| row.call == call) else {
        return String::new();
    };
    let digits = if row.race.ratio < 10.0 { 2 } else { 0 };
    let star = if row.race.ours < CALL_NS { "*" } else { "" };
    format!("{:.digits$}{star}", row.race.ratio)
}
