/// How a line ends: what the line rule drops behind its text. It is added to the original's names.
///
/// ```
/// use sluicepod::{BodyRef, Ending};
///
/// let body = BodyRef::from_bytes(b"Written in the office.\r\n\r\nVehicle: 22\r\nRecords: 1,\r\n 0 late\n")?;
/// let endings: Vec<Ending> = body.trailers().map(|trailer| trailer.ending).collect();
/// assert_eq!(endings, [Ending::CrLf, Ending::Lf]);
/// assert_eq!(body.ending(), Ending::Lf);
/// # Ok::<(), sluicepod::Refusal>(())
/// ```
#[derive(PartialEq, Eq, Debug, Hash, Ord, PartialOrd, Clone, Copy)]
pub enum Ending {
    /// LF.
    Lf,
    /// CR LF.
    CrLf,
    /// A CR alone, which only the last line of an input can end in.
    Cr,
    /// None: the input ends with the line's text.
    None,
}

impl Ending {
    /// The ending of a line: LF, if it ends so, and one CR before that; or one CR at its end.
    ///
    /// One CR at most goes: of `a\r\r\n` the text is `a\r`. A CR that stands elsewhere is text. The line is what it is
    /// given, so an LF before its end is not looked for.
    ///
    /// ```
    /// use sluicepod::Ending;
    ///
    /// assert_eq!(Ending::of(b"a\r\r\n"), Ending::CrLf);
    /// assert_eq!(Ending::of(b"a\r"), Ending::Cr);
    /// assert_eq!(Ending::of(b"a\rb"), Ending::None);
    /// ```
    pub fn of(line: &[u8]) -> Ending {
        match line {
            [.., b'\r', b'\n'] => Ending::CrLf,
            [.., b'\n'] => Ending::Lf,
            [.., b'\r'] => Ending::Cr,
            _ => Ending::None,
        }
    }
}
