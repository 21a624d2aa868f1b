//! The inputs that are timed.

use compare::answers::LIMIT;

/// An input that is read as a message, and what is read as a body with it.
pub struct Shape {
    pub name: String,
    pub message: Vec<u8>,
    pub body: Option<Vec<u8>>,
}

/// The small ones first: messages as people write them, then a long text over a foot, then a mebibyte of one thing.
pub fn all() -> Vec<Shape> {
    let mut shapes: Vec<Shape> = [200, 500, 1_000].into_iter().map(typical).collect();
    shapes.push(over_a_foot("1 KiB over a foot", 1_024));
    shapes.push(over_a_foot("1 MiB over a foot", LIMIT - "title\n\n".len()));
    for (name, unit) in LONG {
        let bare = repeated(b"", unit, LIMIT);
        shapes.push(Shape {
            name: name.to_string(),
            message: bare.clone(),
            body: Some(bare),
        });
        shapes.push(Shape {
            name: format!("{name} below a title"),
            message: repeated(b"title\n\n", unit, LIMIT),
            body: None,
        });
    }
    let folds = repeated(b"Long: a\n", b" a folded line\n", LIMIT);
    shapes.push(Shape {
        name: "folds".to_owned(),
        message: repeated(b"title\n\nLong: a\n", b" a folded line\n", LIMIT),
        body: Some(folds),
    });
    shapes
}

const TEXT: &[u8] = b"The aerial on stand three drops out while a bus is offloaded, and so\n";

const LONG: [(&str, &[u8]); 9] = [
    ("one line", b"a line of text "),
    (
        "70-byte lines",
        b"abcdefghi abcdefghi abcdefghi abcdefghi abcdefghi abcdefghi abcdefghi\n",
    ),
    ("x lines", b"x\n"),
    ("blank lines", b"\n"),
    ("A: b lines", b"A: b\n"),
    ("sign-off lines", b"Signed-off-by: A U Thor <author@example.com>\n"),
    (
        "alternating blocks",
        b"A line of text below the trailers.\nSigned-off-by: A U Thor <author@example.com>\n",
    ),
    ("title lines", b"a \r\n"),
    ("white space", b" \t"),
];

/// A message of about this length as people write them: a title, paragraphs of text, a foot with a folded trailer.
pub fn typical(len: usize) -> Shape {
    let foot: &[u8] = if len < 300 {
        b"\nVehicle: 7\nRecords: 318,\n 22 late\nSigned-off-by: A U Thor <author@example.com>\n"
    } else {
        FOOT
    };
    let mut message = b"Offload the second run of bus 7\n\n".to_vec();
    let mut lines = 0;
    while message.len() + foot.len() + TEXT.len() <= len {
        message.extend_from_slice(TEXT);
        lines += 1;
        if lines % 4 == 0 && message.len() + foot.len() + TEXT.len() < len {
            message.push(b'\n');
        }
    }
    message.extend_from_slice(foot);
    let body = body_of(&message);
    Shape {
        name: format!("typical, {len} bytes"),
        message,
        body: Some(body),
    }
}

const FOOT: &[u8] = b"
Fixes: 54a4f0239f2e (\"Read the aerial's state before the offload\")
Link: https://example.com/offloads/2024/11/7/second-run
Records: 318,
 22 late
Reviewed-by: C O Mitter <committer@example.com>
Signed-off-by: A U Thor <author@example.com>
";

pub fn over_a_foot(name: &str, len: usize) -> Shape {
    let text = repeated(b"", TEXT, len - FOOT.len());
    let body = [&text, FOOT].concat();
    Shape {
        name: name.to_owned(),
        message: [b"title\n\n", &body[..]].concat(),
        body: Some(body),
    }
}

/// A front, and whole units behind it, up to this length.
fn repeated(front: &[u8], unit: &[u8], len: usize) -> Vec<u8> {
    let mut out = front.to_vec();
    while out.len() + unit.len() <= len {
        out.extend_from_slice(unit);
    }
    out
}

fn body_of(message: &[u8]) -> Vec<u8> {
    let (_, start) = compare::original::title_and_body(message);
    message[start.expect("a body")..].to_vec()
}
