//! Programs as they are written for the original, with the import changed and the refusals passed on. Every name that the
//! crate has in common with it is used, and the added lookup.

use std::borrow::Cow;

use sluicepod::{
    message_summary, message_trailers, BodyRef, Ending, MessageBlock, MessageBlocks, MessageRef, Refusal, TrailerRef,
    Trailers,
};

/// Whether a commit says that its offload is complete.
fn is_complete(message: &[u8]) -> Result<bool, Refusal> {
    let body = MessageRef::from_bytes(message)?.body();
    let state = body.and_then(|body| body.find(b"Offload-state"));
    Ok(state.map_or(false, |trailer| *trailer.value == *b"complete"))
}

#[test]
fn an_offload() {
    let complete = b"Offload of bus 7\n\nVehicle: 7\nRecords: 318,\n 22 late\nOffload-state: complete\n";
    assert_eq!(is_complete(complete), Ok(true));
    assert_eq!(is_complete(b"Offload-state: complete\n\nNot yet.\n"), Ok(false));
    assert_eq!(
        is_complete(b"Offload of bus 7\n\nOffload-state: complete,\n but for 3\n"),
        Ok(false)
    );
    assert_eq!(is_complete(&[b' '; sluicepod::LIMIT + 1]), Err(Refusal::TooLong));
}

const MESSAGE: &[u8] = b"Add a\nreader\n\nIt reads.\n\nSigned-off-by: A\nco-authored-by: B\nAssisted-by: C\n\
    Acked-by: D\nReviewed-by: E\nTested-by: F\nIssue: 7\n";

fn text(bytes: &[u8]) -> String {
    String::from_utf8_lossy(bytes).into_owned()
}

fn values<'a>(trailers: impl Iterator<Item = TrailerRef<'a>>) -> String {
    trailers.map(|trailer| text(&trailer.value)).collect()
}

#[test]
fn a_message() -> Result<(), Refusal> {
    let message: MessageRef<'_> = MessageRef::from_bytes(MESSAGE)?;
    let summary: Cow<'_, [u8]> = message.summary();
    assert_eq!(text(&summary), "Add a reader");
    assert_eq!(text(message.title), "Add a\nreader");
    assert_eq!(summary, message_summary(MESSAGE)?);

    let body: BodyRef<'_> = message.body().expect("there is one");
    assert_eq!(message.body.map(BodyRef::from_bytes), Some(Ok(body)));
    assert_eq!(text(body.without_trailer()), "It reads.");
    assert_eq!((body.as_ref(), body.len()), (&b"It reads."[..], 9));
    assert!(body.starts_with(b"It"));
    Ok(())
}

#[test]
fn filters() -> Result<(), Refusal> {
    let walk = || message_trailers(MESSAGE);
    let all: Trailers<'_> = walk()?;
    assert_eq!(values(all), "ABCDEF7");
    assert_eq!(values(walk()?.signed_off_by()), "A");
    assert_eq!(values(walk()?.co_authored_by()), "B");
    assert_eq!(values(walk()?.assisted_by()), "C");
    assert_eq!(values(walk()?.attributions()), "ABCDEF");
    assert_eq!(values(walk()?.authors()), "AB");

    let mut from_the_second = walk()?;
    from_the_second.next();
    assert_eq!(values(from_the_second.authors()), "B");
    Ok(())
}

#[test]
fn questions() -> Result<(), Refusal> {
    fn asked(question: fn(&TrailerRef<'static>) -> bool) -> Result<String, Refusal> {
        Ok(values(message_trailers(MESSAGE)?.filter(question)))
    }
    assert_eq!(asked(TrailerRef::is_signed_off_by)?, "A");
    assert_eq!(asked(TrailerRef::is_co_authored_by)?, "B");
    assert_eq!(asked(TrailerRef::is_assisted_by)?, "C");
    assert_eq!(asked(TrailerRef::is_acked_by)?, "D");
    assert_eq!(asked(TrailerRef::is_reviewed_by)?, "E");
    assert_eq!(asked(TrailerRef::is_tested_by)?, "F");
    assert_eq!(asked(TrailerRef::is_attribution)?, "ABCDEF");
    Ok(())
}

#[test]
fn blocks() -> Result<(), Refusal> {
    let body = BodyRef::from_bytes(b"x\n\nSigned-off-by: A\nnote\nAcked-by: B\n")?;
    let mut blocks: MessageBlocks<'_> = body.message_blocks();
    let first: MessageBlock<'_> = blocks.next().expect("there are two");
    assert_eq!(
        (text(first.message), values(first.trailers())),
        ("x\n\n".into(), "A".into())
    );
    let second = blocks.next().expect("there are two");
    assert_eq!(
        (text(second.message), values(second.trailers())),
        ("note\n".into(), "B".into())
    );
    assert!(blocks.next().is_none());
    Ok(())
}

#[test]
fn records_can_be_compared_ordered_and_hashed() -> Result<(), Refusal> {
    fn is_plain_data<T: Clone + Ord + std::hash::Hash + std::fmt::Debug + Send + Sync>(_: &T) {}
    is_plain_data(&MessageRef::from_bytes(MESSAGE)?);
    is_plain_data(&BodyRef::from_bytes(MESSAGE)?);
    is_plain_data(&TrailerRef {
        token: b"A",
        value: Cow::Borrowed(b"b"),
        ending: Ending::None,
        line: 1,
    });
    Ok(())
}
