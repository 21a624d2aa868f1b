//! The objects of docs/DIFFERENCES.md, "Commit objects beside Git": the page is the table that is run.

use std::io;

use compare::commits::{self, Refused};

use crate::repository::Repository;

const PAGE: &str = include_str!("../../../../../docs/DIFFERENCES.md");
const SECTION: &str = "\n## Commit objects beside Git\n";

/// The Git that the page is of.
const GIT: &str = "git version 2.39.5";

/// A row of the page.
struct Row {
    what: &'static str,
    content: Vec<u8>,
    ours: &'static str,
    log: &'static str,
    fsck: &'static str,
}

/// The lines that the page writes as letters.
struct Letters {
    tree: Vec<u8>,
    parent: Vec<u8>,
}

/// Each row's object by the port, and by Git where it is the one that the page is of; how many answers are not the page's.
pub fn run(repository: &Repository) -> io::Result<usize> {
    let tree = repository.word(&["hash-object", "-t", "tree", "-w", "--stdin"], b"")?;
    let parent = repository.word(&["rev-parse", "made"], b"")?;
    let letters = Letters {
        tree: format!("tree {tree}\n").into_bytes(),
        parent: format!("parent {parent}\n").into_bytes(),
    };
    let rows = rows(&letters);
    let with_git = repository.word(&["version"], b"")? == GIT;
    if !with_git {
        println!("commits: Git not run on the table, which is of {GIT}");
    }
    let mut failures = usize::from(rows.is_empty());
    for row in &rows {
        let mut answers = vec![("Sluicepod", ours(&row.content), row.ours)];
        if with_git {
            let (log, fsck) = git(repository, &row.content)?;
            answers.push(("git log", log, row.log));
            answers.push(("git fsck", fsck, row.fsck));
        }
        for (side, answer, said) in answers {
            if answer != said {
                failures += 1;
                println!("commits: {}: {side} answers {answer}, the page says {said}", row.what);
            }
        }
    }
    println!("commits: {} objects of the table", rows.len());
    Ok(failures)
}

fn rows(letters: &Letters) -> Vec<Row> {
    let section = PAGE.split(SECTION).nth(1).unwrap_or_default();
    let section = section.split("\n## ").next().unwrap_or_default();
    section
        .lines()
        .filter_map(|line| {
            let cells: Vec<&'static str> = line.strip_prefix("| ")?.strip_suffix(" |")?.split(" | ").collect();
            let [what, content, ours, log, fsck] = cells[..] else {
                return None;
            };
            content.starts_with('`').then(|| Row {
                what,
                content: spelt(content, letters),
                ours,
                log,
                fsck: fsck.trim_matches('`'),
            })
        })
        .collect()
}

/// A content as the page writes it: pieces in code marks, letters for whole lines or bytes as in C.
fn spelt(cell: &str, letters: &Letters) -> Vec<u8> {
    let mut out = Vec::new();
    for piece in cell.split('`').skip(1).step_by(2) {
        if piece.bytes().all(|byte| byte.is_ascii_uppercase()) {
            for letter in piece.bytes() {
                out.extend_from_slice(match letter {
                    b'T' => &letters.tree,
                    b'P' => &letters.parent,
                    b'A' => b"author a <b> 0 +0000\n",
                    b'C' => b"committer a <b> 0 +0000\n",
                    b'S' => b"tree 0123456789abcdef0123456789abcdef0123456789abcdef0123456789abcdef\n",
                    b'U' => b"tree 4B825DC642CB6EB9A060E54BF8D69288FBEE4904\n",
                    _ => panic!("no line is written {}", letter as char),
                });
            }
        } else {
            let text = piece
                .replace("\\n", "\n")
                .replace("\\r", "\r")
                .replace("\\t", "\t")
                .replace("\\0", "\0");
            out.extend_from_slice(text.as_bytes());
        }
    }
    out
}

fn ours(content: &[u8]) -> String {
    match commits::message(content) {
        Ok(_) => "good".to_owned(),
        Err(Refused::BadHeader(line)) => format!("13: {line}"),
        Err(Refused::TooLong) => "1".to_owned(),
    }
}

/// Whether `git log` reads the object, and what `git fsck` finds in it.
fn git(repository: &Repository, content: &[u8]) -> io::Result<(String, String)> {
    let id = repository.word(
        &["hash-object", "-t", "commit", "-w", "--literally", "--stdin"],
        content,
    )?;
    let (read, _) = repository.try_git(&["log", "-1", "--format=%T", &id], b"")?;
    if !read {
        return Ok(("refuses".to_owned(), "none".to_owned()));
    }
    let (_, said) = repository.try_git(&["fsck", "--no-dangling"], b"")?;
    let said = String::from_utf8_lossy(&said).into_owned();
    let found = said
        .lines()
        .filter(|line| line.contains(&format!("in commit {id}: ")))
        .find_map(|line| line.split(": ").nth(1));
    Ok(("reads".to_owned(), found.unwrap_or("nothing").to_owned()))
}
