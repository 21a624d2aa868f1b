//! Document 02's K13: its worked examples by their numbers, and the limit.

use sluicepod::{CommitObject, HeaderLine, Refusal, LIMIT};

const FORTY: &str = "0123456789abcdef0123456789abcdef01234567";
const SIXTY_FOUR: &str = "0123456789abcdef0123456789abcdef0123456789abcdef0123456789abcdef";

/// A content, `$40` and `$64` written out.
fn content(text: &str) -> Vec<u8> {
    text.replace("$40", FORTY).replace("$64", SIXTY_FOUR).into_bytes()
}

fn line<'a>(name: &'a str, content: &'a str) -> Option<HeaderLine<'a>> {
    Some(HeaderLine {
        name: name.as_bytes(),
        content: content.as_bytes(),
    })
}

fn refused(text: &str) -> Option<Refusal> {
    CommitObject::from_bytes(&content(text)).err()
}

#[test]
fn lines_1_to_3() {
    let bytes = content("tree $40\nauthor \ncommitter \n\n");
    let commit = CommitObject::from_bytes(&bytes).unwrap();
    assert_eq!(commit.line(0), line("tree", FORTY));
    assert_eq!(commit.line(2), line("committer", ""));
    assert_eq!(commit.message(), b"");
    let bytes = content("tree $40\nauthor \ncommitter \ngpgsig a\n \n  b\n\nm");
    let commit = CommitObject::from_bytes(&bytes).unwrap();
    assert_eq!(commit.line(3), line("gpgsig", "a\n \n  b"));
    assert_eq!(commit.line(4), None);
    assert_eq!(commit.line(usize::MAX), None);
    assert_eq!(commit.message(), b"m");
}

#[test]
fn refusals_4_to_8() {
    let bad = |line| Some(Refusal::BadHeader { line });
    assert_eq!(refused("tree $40\nauthor \ncommitter \nx\n\nm"), bad(3));
    assert_eq!(refused("tree $40\nparent $64\nauthor \ncommitter \n\n"), bad(1));
    assert_eq!(refused("tree $40\nauthor \ncommitter \n"), bad(3));
    assert_eq!(refused("tree $40\nauthor \ncommitter \nx y"), bad(3));
    assert_eq!(refused("tree $40\nauthor \ncommitter \nx y\n z\nq\n\n"), bad(4));
    assert_eq!(refused(""), bad(0));
}

#[test]
fn one_byte_more_than_the_limit_is_refused() {
    let mut bytes = content("tree $64\nparent $64\nauthor a\ncommitter b\n\n");
    bytes.resize(LIMIT, b'x');
    let commit = CommitObject::from_bytes(&bytes).unwrap();
    assert_eq!(commit.line(1), line("parent", SIXTY_FOUR));
    assert!(commit.message().iter().all(|&byte| byte == b'x'));
    bytes.push(b'x');
    assert_eq!(CommitObject::from_bytes(&bytes), Err(Refusal::TooLong));
    bytes[0] = b'x';
    assert_eq!(CommitObject::from_bytes(&bytes), Err(Refusal::TooLong));
    assert_eq!(
        CommitObject::from_bytes(&bytes[..LIMIT]),
        Err(Refusal::BadHeader { line: 0 })
    );
}
