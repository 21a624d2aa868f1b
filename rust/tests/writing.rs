//! The entries of docs/WRITING.md, before and after: what is written, what is read back, and what a line appended by hand does.

use sluicepod::{add_trailer, message_trailers};

/// The new line of every entry.
const TOKEN: &[u8] = b"Offload-state";
const VALUE: &[u8] = b"complete";
const LINE: &[u8] = b"Offload-state: complete\n";

macro_rules! entry {
    ($name:literal) => {
        (
            &include_bytes!(concat!("writing/", $name, "-before.txt"))[..],
            &include_bytes!(concat!("writing/", $name, "-after.txt"))[..],
        )
    };
}

/// The tokens of a message's trailers, by spaces.
fn tokens(message: &[u8]) -> String {
    let tokens: Vec<String> = message_trailers(message)
        .unwrap()
        .map(|trailer| String::from_utf8(trailer.token.to_vec()).unwrap())
        .collect();
    tokens.join(" ")
}

#[test]
fn each_entry_becomes_the_page_s() {
    for (before, after) in [entry!("text"), entry!("block"), entry!("windows"), entry!("title")] {
        assert_eq!(add_trailer(before, TOKEN, VALUE).unwrap(), after);
    }
}

#[test]
fn the_old_trailers_are_read_and_then_the_new_one() {
    assert_eq!(tokens(entry!("text").1), "Offload-state");
    assert_eq!(tokens(entry!("block").1), "Vehicle Records Offload-state");
    assert_eq!(tokens(entry!("windows").1), "Vehicle Records Offload-state");
    assert_eq!(tokens(entry!("title").1), "Offload-state");
}

#[test]
fn a_line_appended_by_hand_is_lost_or_loses_the_others() {
    let by_hand = |before: &[u8]| [before, LINE].concat();
    assert_eq!(tokens(&by_hand(entry!("text").0)), "");
    assert_eq!(tokens(&by_hand(entry!("block").0)), "Offload-state");
    assert_eq!(tokens(&by_hand(entry!("windows").0)), "Vehicle Records Offload-state");
    assert_eq!(tokens(&by_hand(entry!("title").0)), "");
}
