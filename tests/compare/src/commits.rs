//! The port's reading of a commit object's content.

use std::ops::Range;

use crate::archive;

/// A header line: where its name and its content stand.
#[derive(Clone, Debug, PartialEq, Eq)]
pub struct Line {
    pub name: Range<usize>,
    pub content: Range<usize>,
}

/// Why a content is refused.
#[derive(Clone, Copy, Debug, PartialEq, Eq)]
pub enum Refused {
    TooLong,
    /// The number of the first line after which no good header is possible.
    BadHeader(usize),
}

/// A line of the header by its number; none past the last.
pub fn line(content: &[u8], number: usize) -> Result<Option<Line>, Refused> {
    let mut result = [0; archive::RESULT_LEN];
    let code = archive::header_line(content, number, &mut result);
    answered(code, &result)?;
    Ok(match result[0] {
        0 => None,
        _ => Some(Line {
            name: result[1]..result[2],
            content: result[3]..result[4],
        }),
    })
}

/// The lines of the header, in order.
pub fn lines(content: &[u8]) -> Result<Vec<Line>, Refused> {
    let mut lines = Vec::new();
    while let Some(found) = line(content, lines.len())? {
        lines.push(found);
    }
    Ok(lines)
}

/// How many lines the header has, by few calls.
pub fn lines_count(content: &[u8]) -> Result<usize, Refused> {
    let (mut there, mut end) = (0, content.len());
    while there < end {
        let middle = (there + end) / 2;
        match line(content, middle)? {
            Some(_) => there = middle + 1,
            None => end = middle,
        }
    }
    Ok(there)
}

/// Where the message stands.
pub fn message(content: &[u8]) -> Result<Range<usize>, Refused> {
    let mut result = [0; archive::RESULT_LEN];
    let code = archive::commit_message(content, &mut result);
    answered(code, &result)?;
    Ok(result[1]..result[2])
}

fn answered(code: u32, result: &[usize]) -> Result<(), Refused> {
    match code {
        archive::OK => Ok(()),
        archive::TOO_LONG => Err(Refused::TooLong),
        archive::BAD_HEADER => Err(Refused::BadHeader(result[1])),
        _ => panic!("the archive's code {code}"),
    }
}
