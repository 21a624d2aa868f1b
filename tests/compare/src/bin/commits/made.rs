//! What the repositories hold that are made here.

use std::io;

use compare::commits;

use crate::{reading::contents, repository::Repository};

/// Messages: empty, without a final LF, with empty lines around, that look like a header, with trailers, with bytes of no text.
const MESSAGES: &[&[u8]] = &[
    b"",
    b"t",
    b"t\n",
    b"\n\n t\n\nx\n\n\n",
    b"tree 4b825dc642cb6eb9a060e54bf8d69288fbee4904\nauthor a <b> 1 +0000\n\nx\n",
    b"Offload of bus 7\n\nx\n\nVehicle: 7\nRecords: 318,\n 22 late\nOffload-state: complete\n",
    b"t\r\n\r\nVehicle: 7\r\n",
    b"\xff\xfe\x01 y\n",
];

/// Commits of each message, each on top of the last; merges of two and of five; signed ones; other encodings; a merged signed tag.
pub fn fill(repository: &Repository) -> io::Result<()> {
    let tree = repository.word(&["hash-object", "-t", "tree", "-w", "--stdin"], b"")?;
    let mut made: Vec<String> = Vec::new();
    for message in MESSAGES {
        for options in [&["commit-tree"][..], &["commit-tree", "-S"]] {
            let parents: Vec<&str> = made.iter().rev().take(1).flat_map(|id| ["-p", id]).collect();
            made.push(commit(
                repository,
                &[options, &parents[..], &[&tree]].concat(),
                message,
            )?);
        }
    }
    for count in [2, 5] {
        let parents: Vec<&str> = made.iter().rev().take(count).flat_map(|id| ["-p", id]).collect();
        made.push(commit(
            repository,
            &[&["commit-tree"], &parents[..], &[&tree]].concat(),
            b"merged\n",
        )?);
    }
    for encoding in ["ISO-8859-1", "Shift_JIS"] {
        let setting = format!("i18n.commitEncoding={encoding}");
        let words = [
            "-c",
            &setting,
            "commit-tree",
            "-S",
            "-p",
            made.last().expect("one"),
            &tree,
        ];
        made.push(commit(repository, &words, b"B\xe9b\xe9\n\nA: \xe9\n")?);
    }
    repository.git(&["update-ref", "refs/heads/made", made.last().expect("one")], b"")?;
    merge_a_tag(repository, &tree, &made)
}

fn commit(repository: &Repository, words: &[&str], message: &[u8]) -> io::Result<String> {
    repository.word(words, message)
}

/// A merge of a signed tag keeps the tag in the header.
fn merge_a_tag(repository: &Repository, tree: &str, made: &[String]) -> io::Result<()> {
    let side = repository.word(&["commit-tree", "-p", &made[0], tree], b"side\n")?;
    repository.git(
        &["tag", "-s", "-m", "Night of bus 7\n\nTwo lines.", "night", &side],
        b"",
    )?;
    repository.git(&["checkout", "--quiet", "made"], b"")?;
    repository.git(&["merge", "--quiet", "--no-ff", "--no-edit", "-S", "night"], b"")?;
    Ok(())
}

/// The signature that Git takes out of each signed commit, and what it says was signed, are the header's line and the rest of
/// the content; and a mergetag is the tag.
pub fn compare_signatures(repository: &Repository) -> io::Result<usize> {
    let tag = repository.git(&["cat-file", "tag", "night"], b"")?;
    let mut failures = 0;
    let (mut signatures, mut tags) = (0, 0);
    for (id, content) in contents(repository)? {
        for line in commits::lines(&content).unwrap_or_default() {
            let joined = unfolded(&content[line.content.clone()]);
            let good = match &content[line.name.clone()] {
                b"gpgsig" | b"gpgsig-sha256" => {
                    signatures += 1;
                    repository.try_git(&["verify-commit", &id], b"")?;
                    let rest = [&content[..line.name.start], &content[line.content.end + 1..]].concat();
                    repository.verified()? == (joined, rest)
                }
                b"mergetag" => {
                    tags += 1;
                    joined == tag
                }
                _ => true,
            };
            if !good {
                failures += 1;
                println!("commits: {id}: Git reads another {}", content[line.name].escape_ascii());
            }
        }
    }
    if signatures == 0 || tags == 0 {
        failures += 1;
        println!("commits: no signature or no mergetag was made");
    }
    Ok(failures)
}

/// A continued content as it was before it was put into the header: without the space at each line's front, and with its LF.
fn unfolded(content: &[u8]) -> Vec<u8> {
    let mut lines = content.split(|&byte| byte == b'\n');
    let mut out = lines.next().unwrap_or_default().to_vec();
    for line in lines {
        out.push(b'\n');
        out.extend_from_slice(&line[1..]);
    }
    out.push(b'\n');
    out
}
