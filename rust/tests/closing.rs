//! The closing note: document 02's examples, and generated notes with every defect, beside a plain reading of the document.

use sluicepod::{closing_note, may_erase, ClosingNote, Field, Reading, Refusal, LIMIT};

const GOOD: &[u8] = b"t\n\nVehicle: 7\nRecords: 5\nOffload-state: complete\n";
const PATCHED: &[u8] = b"t\n\nVehicle: 7\nRecords: 5\nOffload-state: complete\n---\ndiff\n";

#[test]
fn examples() {
    let note = ClosingNote {
        vehicle: b"7",
        records: 5,
        complete: true,
    };
    // K10.1 and K10.2
    assert_eq!(closing_note(GOOD, Reading::Whole), Ok(note));
    assert_eq!(may_erase(GOOD, Reading::Whole, 5), Ok(true));
    assert_eq!(may_erase(GOOD, Reading::Whole, 4), Ok(false));
    // K10.3 and K10.4
    let missing = b"t\n\nVehicle: 7\nVehicle: 7\nOffload-state: x";
    assert_eq!(
        closing_note(missing, Reading::Whole),
        Err(Refusal::Missing(Field::Records))
    );
    let repeated = b"t\n\nVehicle: x\nRecords: 1\nRecords: 2\nOffload-state: complete";
    assert_eq!(
        may_erase(repeated, Reading::Whole, 1),
        Err(Refusal::Repeated(Field::Records))
    );
    // K10.5 and K10.6
    assert_eq!(
        may_erase(PATCHED, Reading::Whole, 5),
        Err(Refusal::Missing(Field::Vehicle))
    );
    assert_eq!(closing_note(PATCHED, Reading::AboveDivider), Ok(note));
    assert_eq!(may_erase(PATCHED, Reading::AboveDivider, 5), Ok(true));
}

#[test]
fn refusals() {
    let shouted = b"t\n\nVehicle: 7\nRecords: 5\nOffload-state: Complete\n";
    let refusal = may_erase(shouted, Reading::Whole, 5).unwrap_err();
    assert_eq!(refusal, Refusal::BadContent(Field::OffloadState));
    assert_eq!(refusal.number(), 11);
    assert_eq!(
        refusal.to_string(),
        "no closing note: the content of Offload-state is bad"
    );
    assert_eq!(Refusal::Missing(Field::Vehicle).number(), 9);
    assert_eq!(Refusal::Repeated(Field::Records).number(), 10);
    // The limit judges the message uncut.
    let mut long = PATCHED.to_vec();
    long.resize(LIMIT, b'x');
    assert_eq!(may_erase(&long, Reading::AboveDivider, 5), Ok(true));
    long.push(b'x');
    assert_eq!(may_erase(&long, Reading::AboveDivider, 5), Err(Refusal::TooLong));
}

/// Trailers that a generated entry is made of: good ones, ones with a defect, and others.
const TRAILERS: [&str; 26] = [
    "Vehicle: 31\n",
    "vehicle :  000042 \n",
    "Vehicle:\n 31\n",
    "Vehicle: 1234567\n",
    "Vehicle: 3\n 1\n",
    "Vehicle: 31a\n",
    "Vehicle:\n",
    "Records: 207\n",
    "RECORDS:207\n",
    "Records:\n\t207\n",
    "Records: 0\n",
    "Records: 1000000\n",
    "Records: 1000001\n",
    "Records: 0207\n",
    "Records: 31\n 8\n",
    "Records: 18446744073709551823\n",
    "Records: +207\n",
    "Offload-state: complete\n",
    "offload-STATE: partial\r\n",
    "Offload-state:\n complete\n",
    "Offload-state: Complete\n",
    "Offload-state: comp\n lete\n",
    "Offload-state: complete,\n nearly\n",
    "Signed-off-by: M. Okafor <okafor@depot.example>\n",
    "Vehicles: 31\n",
    "Fixes: Records: 207\n",
];

/// The contents of the trailers with a name, by a plain reading: lines trimmed and joined by one space.
fn contents(chosen: &[&str], name: &str) -> Vec<String> {
    let value = |trailer: &&str| {
        let (token, raw) = trailer.split_once(':').unwrap();
        let lines: Vec<&str> = raw.split('\n').map(str::trim).filter(|line| !line.is_empty()).collect();
        token.trim().eq_ignore_ascii_case(name).then(|| lines.join(" "))
    };
    chosen.iter().filter_map(value).collect()
}

fn is_good(field: Field, content: &str) -> bool {
    let digits = !content.is_empty() && content.bytes().all(|byte| byte.is_ascii_digit());
    match field {
        Field::Vehicle => digits && content.len() <= 6,
        Field::Records => {
            digits
                && content
                    .parse()
                    .map_or(false, |n: u128| n <= 1_000_000 && n.to_string() == content)
        }
        Field::OffloadState => content == "complete" || content == "partial",
    }
}

/// What document 02 says of an entry with these trailers.
fn plain(chosen: &[&str]) -> Result<(String, u32, bool), Refusal> {
    let fields = [Field::Vehicle, Field::Records, Field::OffloadState];
    let all: Vec<Vec<String>> = fields.iter().map(|field| contents(chosen, field.name())).collect();
    let first = |wrong: &dyn Fn(usize) -> bool| (0..3).find(|&i| wrong(i)).map(|i| fields[i]);
    if let Some(field) = first(&|i| all[i].is_empty()) {
        return Err(Refusal::Missing(field));
    }
    if let Some(field) = first(&|i| all[i].len() > 1) {
        return Err(Refusal::Repeated(field));
    }
    if let Some(field) = first(&|i| !is_good(fields[i], &all[i][0])) {
        return Err(Refusal::BadContent(field));
    }
    Ok((all[0][0].clone(), all[1][0].parse().unwrap(), all[2][0] == "complete"))
}

#[test]
fn generated() {
    let mut seed = 0x2545_f491_4f6c_dd1d_u64;
    let mut below = |n: usize| {
        seed ^= seed << 13;
        seed ^= seed >> 7;
        seed ^= seed << 17;
        (seed % n as u64) as usize
    };
    let mut seen = [0; 12];
    for _ in 0..50_000 {
        // Often one of each, good or bad, and some more.
        let mut chosen = vec![TRAILERS[below(7)], TRAILERS[7 + below(10)], TRAILERS[17 + below(6)]];
        for _ in 0..below(3) {
            chosen.push(TRAILERS[23 + below(3)]);
        }
        if below(4) == 0 {
            chosen.push(TRAILERS[below(26)]);
        }
        if below(4) == 0 {
            chosen.remove(below(3));
        }
        for i in (1..chosen.len()).rev() {
            chosen.swap(i, below(i + 1));
        }
        let patch = if below(2) == 0 { "" } else { "---\nVehicle: 5\n+x\n" };
        let entry = format!(
            "Offload\n\nVehicle: 1\nOffload-state: complete\n\n{}{}",
            chosen.concat(),
            patch
        );
        let reading = if patch.is_empty() && below(2) == 0 {
            Reading::Whole
        } else {
            Reading::AboveDivider
        };
        let want = plain(&chosen);
        let got = closing_note(entry.as_bytes(), reading);
        let told = got.map(|note| {
            (
                String::from_utf8(note.vehicle.to_vec()).unwrap(),
                note.records,
                note.complete,
            )
        });
        assert_eq!(told, want, "{:?}", entry);
        for received in [207, 0] {
            let erase = may_erase(entry.as_bytes(), reading, received);
            let yes = want
                .clone()
                .map(|(_, records, complete)| complete && records as usize == received);
            assert_eq!(erase, yes, "{:?}", entry);
            seen[erase.map_or_else(|refusal| refusal.number() as usize, usize::from)] += 1;
        }
    }
    // No, yes, and each refusal was seen.
    for answer in [0, 1, 9, 10, 11] {
        assert!(seen[answer] > 100, "{}: {}", answer, seen[answer]);
    }
}
