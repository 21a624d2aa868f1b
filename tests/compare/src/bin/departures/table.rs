//! The departures, each with a smallest message. docs/DIFFERENCES.md shows this table.

/// A message on which the original, Git or Git's manual part ways.
pub struct Row {
    pub class: &'static str,
    pub what: &'static str,
    pub message: &'static [u8],
    pub read_as: ReadAs,
    /// Settings under which Git is run.
    pub settings: &'static [&'static str],
    /// The trailers as Git prints them: `token: value`, each on a line.
    pub original: &'static [u8],
    /// The same in the second reading, where the two readings are set beside Git: the original on the message above its first
    /// divider.
    pub second: Option<&'static [u8]>,
    /// The same of Git; none where Git does not end.
    pub git: Option<&'static [u8]>,
    /// The messages among which this one is a smallest on which the two part.
    pub among: Option<Space>,
}

/// What the original takes the row's message for. To Git it is always a message.
#[derive(Clone, Copy, PartialEq)]
pub enum ReadAs {
    Message,
    Body,
}

/// All messages that are `front` and then pieces.
pub struct Space {
    pub front: &'static [u8],
    pub pieces: &'static [&'static [u8]],
    /// Only the tokens count, not the values.
    pub tokens_only: bool,
    /// The departure counts only if Git answers otherwise with the second of these in the first one's place.
    pub unlike: Option<(&'static [u8], &'static [u8])>,
}

const SCISSORS: &[u8] = b"# ------------------------ >8 ------------------------\n";

const fn below_an_empty_title(pieces: &'static [&'static [u8]]) -> Option<Space> {
    among(b"\n\n", pieces)
}

const fn among(front: &'static [u8], pieces: &'static [&'static [u8]]) -> Option<Space> {
    Some(space(front, pieces))
}

const fn space(front: &'static [u8], pieces: &'static [&'static [u8]]) -> Space {
    Space {
        front,
        pieces,
        tokens_only: false,
        unlike: None,
    }
}

/// A row without settings whose message is read as a message.
const fn row(
    class: &'static str,
    what: &'static str,
    message: &'static [u8],
    original: &'static [u8],
    git: &'static [u8],
    among: Option<Space>,
) -> Row {
    Row {
        class,
        what,
        message,
        read_as: ReadAs::Message,
        settings: &[],
        original,
        second: None,
        git: Some(git),
        among,
    }
}

/// A row of the divider, which the second reading reads.
const fn divided(
    what: &'static str,
    message: &'static [u8],
    original: &'static [u8],
    second: &'static [u8],
    git: &'static [u8],
    among: Option<Space>,
) -> Row {
    Row {
        second: Some(second),
        ..row("1", what, message, original, git, among)
    }
}

pub const ROWS: &[Row] = &[
    divided(
        "a divider below the foot",
        b"\n\nA:\n---\n",
        b"",
        b"A: \n",
        b"A: \n",
        below_an_empty_title(&[b"A:", b"---", b"\n", b" "]),
    ),
    divided(
        "a divider above the foot",
        b"---\n\nA:",
        b"A: \n",
        b"",
        b"",
        among(b"---", &[b"A:", b"\n", b" "]),
    ),
    divided(
        "a tab behind the hyphens",
        b"\n\nA:\n---\t",
        b"",
        b"",
        b"A: \n",
        below_an_empty_title(&[b"A:", b"---", b"\n", b"\t"]),
    ),
    divided(
        "a CR behind the hyphens, at the end",
        b"\n\nA:\n---\r",
        b"",
        b"A: \n",
        b"A: \n",
        below_an_empty_title(&[b"A:", b"---", b"\n", b"\r"]),
    ),
    divided(
        "a CR behind the hyphens, and more",
        b"\n\nA:\n---\rx",
        b"",
        b"",
        b"A: \n",
        None,
    ),
    divided(
        "a divider at the end of the input",
        b"\n\nA:\n---",
        b"",
        b"A: \n",
        b"",
        None,
    ),
    Row {
        settings: &["trailer.a.key=A"],
        ..row(
            "2",
            "a configured trailer carries the block",
            b"\n\nA:\nx",
            b"",
            b"A: \n",
            below_an_empty_title(&[b"A:", b"x", b"\n", b" "]),
        )
    },
    Row {
        settings: &["trailer.a.key=A"],
        ..row(
            "2",
            "a configured trailer is spelt anew",
            b"\n\na:",
            b"a: \n",
            b"A: \n",
            below_an_empty_title(&[b"a:", b"x", b"\n", b" "]),
        )
    },
    Row {
        settings: &["trailer.separators=:="],
        ..row(
            "2",
            "a configured separator",
            b"\n\nA=",
            b"",
            b"A: \n",
            below_an_empty_title(&[b"A=", b"x", b"\n", b" "]),
        )
    },
    row(
        "3",
        "a whitespace-only line under the title",
        b"t\n \nA:",
        b"",
        b"A: \n",
        among(b"t", &[b"A:", b"\n", b" ", b"\t", b"x"]),
    ),
    row(
        "3",
        "the same of CR alone",
        b"t\n\r\r\nA:",
        b"",
        b"A: \n",
        among(b"t", &[b"A:", b"\n", b"\r", b"x"]),
    ),
    row(
        "4",
        "a blank first line",
        b"\nA:",
        b"",
        b"A: \n",
        among(b"", &[b"A:", b"\n", b" ", b"x"]),
    ),
    row(
        "5",
        "a comment line above a trailer",
        b"\n\n#\nA:",
        b"",
        b"A: \n",
        below_an_empty_title(&[b"A:", b"#", b"\n", b" ", b"x"]),
    ),
    row(
        "5",
        "a comment line below a trailer",
        b"\n\nA:\n#",
        b"",
        b"A: \n",
        below_an_empty_title(&[b"A:", b"#", b"\n", b" ", b"x"]),
    ),
    row(
        "6",
        "a scissors line below the foot",
        b"\n\nA:\n# ------------------------ >8 ------------------------\nx",
        b"",
        b"A: \n",
        Some(Space {
            front: b"\n\nA:\n",
            pieces: &[b"A:", SCISSORS, b"\n", b"x"],
            tokens_only: false,
            unlike: Some((SCISSORS, b"#\n")),
        }),
    ),
    row(
        "6",
        "a scissors line above the foot",
        b"# ------------------------ >8 ------------------------\n\nA:",
        b"A: \n",
        b"",
        among(SCISSORS, &[b"A:", b"\n", b"x"]),
    ),
    row(
        "7",
        "a trailing `Conflicts:` part",
        b"\n\nConflicts:\n",
        b"Conflicts: \n",
        b"",
        below_an_empty_title(&[b"A:", b"Conflicts:", b"\n", b"\t", b"x"]),
    ),
    row(
        "8",
        "a line of form feed above a trailer",
        b"\n\n\x0c\nA:",
        b"A: \n",
        b"",
        Some(Space {
            front: b"\n\n",
            pieces: &[b"A:", b"\x0c", b"\n", b"x"],
            tokens_only: true,
            unlike: None,
        }),
    ),
    row(
        "8",
        "a line of form feed below a trailer",
        b"\n\nA:\n\x0c",
        b"A: \n",
        b"",
        Some(Space {
            front: b"\n\n",
            pieces: &[b"A:", b"\x0c", b"\n", b"x"],
            tokens_only: true,
            unlike: None,
        }),
    ),
    row(
        "9",
        "vertical tab around a value",
        b"\n\nA:\x0b",
        b"A: \n",
        b"A: \x0b\n",
        below_an_empty_title(&[b"A:", b"\x0b", b"\n", b" ", b"x"]),
    ),
    row(
        "9",
        "form feed around a value",
        b"\n\nA:\x0c",
        b"A: \n",
        b"A: \x0c\n",
        below_an_empty_title(&[b"A:", b"\x0c", b"\n", b" ", b"x"]),
    ),
    row(
        "9",
        "white space beyond ASCII around a value",
        b"\n\nA:\xc2\x85",
        b"A: \n",
        b"A: \xc2\x85\n",
        below_an_empty_title(&[b"A:", b"\xc2", b"\x85", b"\xa0", b"\n", b" "]),
    ),
    row(
        "10",
        "a blank before a fold",
        b"\n\nA:x \n x",
        b"A: x x\n",
        b"A: x  x\n",
        below_an_empty_title(&[b"A:", b"\n", b" ", b"x"]),
    ),
    row(
        "10",
        "a CR before a fold",
        b"\n\nA:x\r\n x",
        b"A: x x\n",
        b"A: x\r x\n",
        below_an_empty_title(&[b"A:", b"\n", b" ", b"\r", b"x"]),
    ),
    row(
        "11",
        "NUL",
        b"\n\nA:\0",
        b"A: \0\n",
        b"A: \n",
        below_an_empty_title(&[b"A:", b"\0", b"\n", b" ", b"x"]),
    ),
    Row {
        read_as: ReadAs::Body,
        ..row(
            "12",
            "a bare body",
            b"A:",
            b"A: \n",
            b"",
            among(b"", &[b"A:", b"\n", b" ", b"x"]),
        )
    },
    Row {
        git: None,
        ..row(
            "13",
            "a scissors line below a divider",
            b"---\n# ------------------------ >8 ------------------------\n",
            b"",
            b"",
            among(b"", &[b"A:", b"---", SCISSORS, b"\n", b" ", b"x"]),
        )
    },
];

/// Where the second reading and Git part, and in which space the row's message is a smallest one: the rows of class 1 that have it.
pub const SECOND: &[(&str, Space)] = &[
    (
        "a tab behind the hyphens",
        space(b"\n\n", &[b"A:", b"---\t", b"---\n", b"\n", b" "]),
    ),
    (
        "a CR behind the hyphens, and more",
        space(b"\n\n", &[b"A:", b"---\n", b"---\r", b"\n", b"x"]),
    ),
    (
        "a divider at the end of the input",
        space(b"\n\n", &[b"A:", b"---", b"\n", b" "]),
    ),
];

/// What the original answers of one input, without Git.
pub struct Claim {
    pub what: &'static str,
    pub question: Question,
    pub input: &'static [u8],
    pub answer: &'static str,
}

/// How the answer is written: bytes escaped, offsets as numbers, none as `none`.
#[derive(Clone, Copy, Debug)]
pub enum Question {
    /// The summary of the input's title, then that of the whole input.
    Summaries,
    /// The summary of the input as a title.
    Summary,
    /// The place of the whole input's summary.
    SummaryPlace,
    /// The place of the value of the first trailer of the input as a body.
    ValuePlace,
    /// The block start of the input as a body, then its trailers' tokens.
    StartAndTokens,
    /// The tokens of the trailers of the input as a message.
    MessageTokens,
}

const fn claim(what: &'static str, question: Question, input: &'static [u8], answer: &'static str) -> Claim {
    Claim {
        what,
        question,
        input,
        answer,
    }
}

pub const CLAIMS: &[Claim] = &[
    claim(
        "message_summary() is not summary(): smallest",
        Question::Summaries,
        b"\n\na",
        "`` `a`",
    ),
    claim(
        "message_summary() is not summary(): smallest where neither is empty",
        Question::Summaries,
        b"a\n\r\nb",
        "`a` `a  b`",
    ),
    claim(
        "message_summary() is not summary(): case 4",
        Question::Summaries,
        b"a\r\n\r\nb",
        "`a` `a  b`",
    ),
    claim(
        "summary() keeps blanks after an LF: smallest",
        Question::Summary,
        b"a\n b",
        "`a  b`",
    ),
    claim(
        "summary() keeps blanks after an LF: case 5",
        Question::Summary,
        b"a \n  b",
        "`a   b`",
    ),
    claim(
        "summary() keeps blanks within a line",
        Question::Summary,
        b"a\tb",
        "`a\\tb`",
    ),
    claim("an empty summary lies at the end", Question::SummaryPlace, b"\t", "1"),
    claim("an empty value lies at the end", Question::ValuePlace, b"A: ", "3"),
    claim(
        "the empty raw value lies outside the body",
        Question::ValuePlace,
        b"A:",
        "none",
    ),
    claim(
        "the block holds the ending of the line above its blank line: smallest",
        Question::StartAndTokens,
        b"\n\nA:",
        "0 A",
    ),
    claim(
        "the block holds the ending of the line above its blank line: with a line above",
        Question::StartAndTokens,
        b"x\n\nA:",
        "1 A",
    ),
    claim("a token ends without `: `", Question::StartAndTokens, b"A:", "0 A"),
    claim(
        "a token ends before the blanks",
        Question::StartAndTokens,
        b"A :",
        "0 A",
    ),
    claim(
        "a line that is no trailer goes with the trailers",
        Question::StartAndTokens,
        b"Signed-off-by: \nx",
        "0 Signed-off-by",
    ),
    claim(
        "the last paragraph of a message without a body is not read",
        Question::MessageTokens,
        b"A:",
        "",
    ),
];
