//! A night at the depot: a repository of offload entries, the bundle of one night's, and its report, beside what Git itself
//! counts by `%(trailers)`.

#[allow(dead_code)]
#[path = "../examples/bundle.rs"]
mod example;

use std::{
    ffi::OsString,
    fs,
    path::{Path, PathBuf},
    process::Command,
};

use sluicepod::{Bundle, Report};

const TOKENS: [&str; 6] = [
    "Signed-off-by",
    "Co-authored-by",
    "Assisted-by",
    "Acked-by",
    "Reviewed-by",
    "Tested-by",
];

/// Entries of crates/journal that the depot writes on one night.
const JOURNAL: [&str; 9] = [
    "plain",
    "quoted",
    "note",
    "stray",
    "stray-unsigned",
    "three-others",
    "four-others",
    "folded",
    "picked",
];

const OTHERS: [&str; 4] = [
    "Swap the card of bus 12\n\nVehicle: 12\nReviewed-by: J. Lindqvist\ntested-BY: M. Okafor\n",
    "Write the rota\n\nCo-authored-by: A\nAssisted-by: B\n with C\nAcked-by: D\nAcked-by: E\n",
    "No word below the title\n",
    "Two sign-offs\n\nText: not the last paragraph\n\nSigned-off-by: A\nSigned-off-by: B\n",
];

/// Runs Git in the repository, at a time of the committer's clock.
fn git(repository: &Path, at: &str, words: &[&str]) -> Vec<u8> {
    let run = Command::new("git")
        .current_dir(repository)
        .args(["-c", "user.name=Unit 3", "-c", "user.email=unit3@depot.example"])
        .args(["-c", "commit.gpgSign=false"])
        .args(words)
        .env("GIT_CONFIG_GLOBAL", "/dev/null")
        .env("GIT_CONFIG_NOSYSTEM", "1")
        .env("GIT_AUTHOR_DATE", at)
        .env("GIT_COMMITTER_DATE", at)
        .output()
        .unwrap();
    assert!(
        run.status.success(),
        "git {:?}: {}",
        words,
        String::from_utf8_lossy(&run.stderr)
    );
    run.stdout
}

/// A repository with one entry before the night, the night's, and one behind it.
fn depot() -> PathBuf {
    let top = std::env::temp_dir().join(format!("sluicepod-night-{}", std::process::id()));
    fs::create_dir_all(&top).unwrap();
    let journal = Path::new(env!("CARGO_MANIFEST_DIR")).join("../crates/journal/data");
    git(&top, "2024-03-01T12:00:00Z", &["init", "--quiet"]);
    let commit = |at: &str, message: &[u8]| {
        fs::write(top.join("entry"), message).unwrap();
        let words = [
            "commit",
            "--quiet",
            "--allow-empty",
            "--cleanup=verbatim",
            "-F",
            "entry",
        ];
        git(&top, at, &words);
    };
    commit("2024-03-01T17:00:00Z", b"Before the night\n\nSigned-off-by: A\n");
    for (k, name) in JOURNAL.iter().enumerate() {
        let message = fs::read(journal.join(format!("{}.txt", name))).unwrap();
        commit(&format!("2024-03-01T20:{:02}:00Z", k), &message);
    }
    for (k, message) in OTHERS.iter().enumerate() {
        commit(&format!("2024-03-02T03:{:02}:00Z", k), message.as_bytes());
    }
    commit("2024-03-02T07:00:00Z", b"After the night\n\nSigned-off-by: B\n");
    top
}

/// The eight numbers, counted from the keys that Git gives for each commit.
fn counted_by_git(keys: &[u8]) -> Report {
    let mut report = Report::default();
    let commits: Vec<_> = keys.split(|byte| *byte == 0).collect();
    for commit in &commits[..commits.len() - 1] {
        let keys: Vec<_> = commit
            .split(|byte| *byte == b'\n')
            .filter(|key| !key.is_empty())
            .collect();
        for key in &keys {
            let figure = TOKENS
                .iter()
                .position(|token| token.as_bytes().eq_ignore_ascii_case(key));
            report.counts[figure.unwrap_or(6)] += 1;
        }
        report.without += usize::from(keys.is_empty());
    }
    report
}

#[test]
fn a_night_as_git_counts_it() {
    if Command::new("git").arg("version").output().is_err() {
        eprintln!("night: not run: there is no git");
        return;
    }
    let repository = depot();
    let night = ["--since=2024-03-01T18:00:00Z", "--until=2024-03-02T06:00:00Z"];
    let words: Vec<OsString> = [OsString::from("-C"), repository.clone().into()]
        .into_iter()
        .chain(night.map(OsString::from))
        .collect();

    let bytes = example::bundle(&words).unwrap();
    let bundle = Bundle::from_bytes(&bytes).unwrap();
    assert_eq!(bundle.len(), JOURNAL.len() + OTHERS.len());
    // from the last to the first
    assert_eq!(bundle.get(0), Some(OTHERS[3].as_bytes()));

    let keys = "--format=tformat:%(trailers:only=true,keyonly=true)";
    let keys = git(&repository, "", &["log", "-z", keys, night[0], night[1]]);
    let report = bundle.report();
    assert_eq!(report, counted_by_git(&keys));
    assert_eq!(report.counts, [4, 1, 1, 2, 1, 1, 13]);
    assert_eq!(report.without, 5);
    fs::remove_dir_all(&repository).unwrap();
}
