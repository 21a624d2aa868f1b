//! The second reading of a message (document 02, K7): the message above its first divider, by document 02's sentence and a plain
//! reading of the lines. It knows nothing of the port.

/// "the message ends before its first line whose text is `---` or starts with `--- `"
pub fn above(message: &[u8]) -> &[u8] {
    above_first(message, is_divider)
}

/// The message above its first line that passes.
pub fn above_first(message: &[u8], passes: impl Fn(&[u8]) -> bool) -> &[u8] {
    let mut end = 0;
    for line in message.split_inclusive(|&byte| byte == b'\n') {
        if passes(line) {
            break;
        }
        end += line.len();
    }
    &message[..end]
}

/// Whether a line is a divider. Its text drops LF, or CR LF, or a single CR at the end.
pub fn is_divider(line: &[u8]) -> bool {
    let text = line.strip_suffix(b"\n").unwrap_or(line);
    let text = text.strip_suffix(b"\r").unwrap_or(text);
    text == b"---" || text.starts_with(b"--- ")
}

/// What is put into an input to make a mail of it: dividers, and what is near them.
const MARKS: &[&[u8]] = &[
    b"\n---\n",
    b"---",
    b"\n--- ",
    b"\n---\r\n",
    b"\n---\t\n",
    b"\n----\n",
    b"\r\n---\n",
    b"\n---\nA: b\n",
];

/// The input with a mark in it, at a place that hangs on its bytes. An input around the limit keeps its length.
pub fn mail(input: &[u8]) -> Vec<u8> {
    let hash = input.iter().fold(0xcbf2_9ce4_8422_2325_u64, |hash, &byte| {
        (hash ^ u64::from(byte)).wrapping_mul(0x0100_0000_01b3)
    }) >> 16;
    let mark = MARKS[hash as usize % MARKS.len()];
    let at = hash as usize / MARKS.len() % (input.len() + 1);
    let mut mail = [&input[..at], mark, &input[at..]].concat();
    if input.len() > 1_000_000 {
        mail.truncate(input.len());
    }
    mail
}
