//! A program without the standard library and without an allocator: the crate, without its feature `alloc`, is asked all that
//! it then offers. A call that needed a heap would not link. It ends with 0, or is aborted where an answer is another.
#![no_std]
#![no_main]

use core::panic::PanicInfo;

use sluicepod::{
    above_divider, add_trailer_into, closing_note, find_trailer, list_foot, list_from, list_trailers, mailbox,
    may_erase, message_end, message_summary_into, next_trailer, summary_into, BodyRef, Bundle, CommitObject, Cursor,
    Ending, MessageRef, Place, Reading, Record, Refusal,
};

#[link(name = "c")]
extern "C" {
    fn abort() -> !;
}

#[panic_handler]
fn panicked(_: &PanicInfo<'_>) -> ! {
    // SAFETY: it takes nothing and does not return.
    unsafe { abort() }
}

#[no_mangle]
pub extern "C" fn main() -> i32 {
    parts();
    steps();
    lists();
    feet();
    blocks();
    written();
    readings();
    others();
    0
}

const ENTRY: &[u8] = b"Offload of bus 7,\nsecond run\n\nAll well.\n\nVehicle: 7\nRecords: 318,\n 22 late\n\
    Offload-state: partial\nOffload-state: complete\n";

/// The body of an entry.
fn body(entry: &[u8]) -> BodyRef<'_> {
    MessageRef::from_bytes(entry).unwrap().body().unwrap()
}

fn parts() {
    let entry = MessageRef::from_bytes(ENTRY).unwrap();
    assert!(entry.title == b"Offload of bus 7,\nsecond run");
    assert!(body(ENTRY).without_trailer() == b"All well.");
    assert!(body(ENTRY).trailer_start() == 9);
    assert!(body(ENTRY).ending() == Ending::Lf);

    let mut out = [b'.'; 30];
    let summary = summary_into(entry.title, &mut out).unwrap();
    assert!(summary.bytes(entry.title, &out) == b"Offload of bus 7, second run");
    assert!(message_summary_into(b" one line ", &mut []) == Ok(Place::Message(1..9)));
}

fn steps() {
    let mut out = [b'.'; 14];
    let mut cursor = Cursor::of_message(ENTRY).unwrap();
    let mut lines = [0; 4];
    for line in &mut lines {
        let step = next_trailer(ENTRY, cursor, &mut out).unwrap();
        *line = step.record.unwrap().line;
        cursor = step.next;
    }
    assert!(lines == [6, 7, 9, 10] && &out == b"318, 22 late..");
    assert!(next_trailer(ENTRY, cursor, &mut []).unwrap().record.is_none());

    let bytes = MessageRef::from_bytes(ENTRY).unwrap().body.unwrap();
    assert!(next_trailer(bytes, body(ENTRY).cursor(), &mut []).unwrap().next.line == 4);
    let state = find_trailer(bytes, b"offload-state", &mut []).unwrap().unwrap();
    assert!(state.token_bytes(bytes) == b"Offload-state" && state.value_bytes(bytes, &[]) == b"complete");
    assert!(find_trailer(bytes, b"records", &mut [0; 11]) == Err(Refusal::NoRoom { needed: 12 }));
}

fn lists() {
    let at = Cursor::of_message(ENTRY).unwrap();
    let (mut table, mut out) = ([Record::EMPTY; 5], [b'.'; 14]);
    let listed = list_from(ENTRY, at, &mut table, &mut out).unwrap();
    assert!((listed.records, listed.bytes) == (4, 12) && &out == b"318, 22 late..");
    assert!(list_trailers(ENTRY, Reading::Whole, &mut table, &mut out) == Ok(listed));
    assert!(table[1].value == Place::Buffer(0..12) && table[3].line == 10 && table[4] == Record::EMPTY);
    let (records, bytes) = (4, 12);
    assert!(list_from(ENTRY, at, &mut table[..3], &mut out) == Err(Refusal::ShortTable { records, bytes }));
    assert!(list_from(ENTRY, at, &mut table, &mut out[..11]) == Err(Refusal::NoRoomForAll { records, bytes }));
}

fn feet() {
    let (mut table, mut out) = ([Record::EMPTY; 5], [b'.'; 14]);
    let foot = list_foot(&ENTRY[25..], false, &mut table, &mut out).unwrap();
    assert!((foot.records, foot.bytes, foot.lines) == (4, 12, 6) && &out == b"318, 22 late..");
    assert!(table[0].line == 5 && table[0].from_front(ENTRY.len()).token_bytes(ENTRY) == b"Vehicle");
    assert!(list_foot(&ENTRY[45..], false, &mut table, &mut out) == Err(Refusal::MoreBytes));
}

fn blocks() {
    let body = BodyRef::from_bytes(b"A: b\nSigned-off-by: c\nx\nD: e\n").unwrap();
    assert!(body.message_blocks().count() == 2);
    let (input, cursor) = body.message_blocks().nth(1).unwrap().walk();
    assert!(next_trailer(input, cursor, &mut []).unwrap().record.unwrap().line == 4);
}

fn written() {
    let mut out = [b'.'; 10];
    assert!(add_trailer_into(b"t", b"A", b"v", &mut out) == Ok(8));
    assert!(&out == b"t\n\nA: v\n..");
    assert!(add_trailer_into(b"", b"A", b"v", &mut out) == Err(Refusal::NothingToStandOn));
}

fn readings() {
    let mail = b"t\n\nA: b\n---\nx";
    assert!(message_end(mail, Reading::AboveDivider) == Ok(8));
    assert!(above_divider(mail) == Ok(&mail[..8]));
    let closed = b"t\n\nVehicle: 7\nRecords: 5\nOffload-state: complete\n";
    assert!(closing_note(closed, Reading::Whole).unwrap().records == 5);
    assert!(may_erase(closed, Reading::Whole, 5) == Ok(true));
}

fn others() {
    assert!(mailbox(b"Ada <ada@depot.example>").unwrap().name == b"Ada");
    let bundle = Bundle::from_bytes(b"\x01\0\0\0\x0c\0\0\0\x0e\0\0\0ab").unwrap();
    assert!(bundle.get(0) == Some(b"ab") && bundle.report().without == 1);
    let content = b"tree 4b825dc642cb6eb9a060e54bf8d69288fbee4904\nauthor \ncommitter \n\nt";
    let commit = CommitObject::from_bytes(content).unwrap();
    assert!(commit.line(0).unwrap().name == b"tree" && commit.message() == b"t");
}
