//! The messages of docs/DIFFERENCES.md, "Adding a trailer beside Git": the page is the table that is run.

use std::io;

use compare::{additions::ours, git::Git};

const PAGE: &str = include_str!("../../../../../docs/DIFFERENCES.md");
const SECTION: &str = "\n## Adding a trailer beside Git\n";

/// A row of the page: the trailer is `A: v`.
struct Row {
    what: &'static str,
    message: Vec<u8>,
    ours: Result<Vec<u8>, u32>,
    git: Vec<u8>,
}

/// How many new messages of the port are not the page's.
pub fn run_ours() -> usize {
    let rows = rows();
    let differ = |row: &&Row| {
        let seen = ours(&row.message, b"A", b"v");
        let differs = seen != row.ours || seen.as_ref() == Ok(&row.git);
        if differs {
            println!(
                "additions: {}: Sluicepod answers {seen:?}, the page says {:?}",
                row.what, row.ours
            );
        }
        differs
    };
    println!("additions: {} messages of the table", rows.len());
    rows.iter().filter(differ).count() + usize::from(rows.is_empty())
}

/// How many of Git are not.
pub fn run_git(git: &Git) -> io::Result<usize> {
    let rows = rows();
    let messages: Vec<Vec<u8>> = rows.iter().map(|row| row.message.clone()).collect();
    let mut failures = 0;
    for (row, seen) in rows.iter().zip(git.add_all(&messages, "A: v")?) {
        if seen != row.git {
            failures += 1;
            println!(
                "additions: {}: Git answers `{}`, the page says `{}`",
                row.what,
                seen.escape_ascii(),
                row.git.escape_ascii()
            );
        }
    }
    Ok(failures)
}

fn rows() -> Vec<Row> {
    let section = PAGE.split(SECTION).nth(1).unwrap_or_default();
    let section = section.split("\n## ").next().unwrap_or_default();
    section
        .lines()
        .filter_map(|line| {
            let cells: Vec<&'static str> = line.strip_prefix("| ")?.strip_suffix(" |")?.split(" | ").collect();
            let [what, message, ours, git] = cells[..] else {
                return None;
            };
            (message.starts_with('`') || message == "(empty)").then(|| Row {
                what,
                message: spelt(message),
                ours: ours
                    .strip_prefix("refused ")
                    .map_or_else(|| Ok(spelt(ours)), |number| Err(number.parse().expect("a number"))),
                git: spelt(git),
            })
        })
        .collect()
}

/// Bytes as the page writes them: as in C, in code marks.
fn spelt(cell: &str) -> Vec<u8> {
    if cell == "(empty)" {
        return Vec::new();
    }
    let text = cell.trim_matches('`');
    let text = text
        .replace("\\n", "\n")
        .replace("\\r", "\r")
        .replace("\\t", "\t")
        .replace("\\f", "\x0c")
        .replace("\\0", "\0");
    text.into_bytes()
}
