//! Prints the trailers of a note, of which no more is read than its foot: a file that holds a body, read from its end in growing
//! steps until the answer comes.
//!
//!     cargo run --example foot -- FILE
//!
//! Each trailer is a line; a last line, on standard error, says how much of the file was read.

use std::{
    env,
    error::Error,
    fs::File,
    io::{Read, Seek, SeekFrom},
    process::exit,
};

use sluicepod::{list_foot, Record, Refusal};

fn main() {
    let Some(name) = env::args_os().nth(1) else {
        eprintln!("foot: name a file");
        exit(1);
    };
    let read = File::open(name)
        .map_err(Into::into)
        .and_then(|mut file| read_foot(&mut file));
    match read {
        Ok(foot) => {
            for (token, value) in &foot.trailers {
                println!("{}: {}", token, value);
            }
            eprintln!("read {} bytes, looked at {} lines", foot.bytes, foot.lines);
        }
        Err(why) => {
            eprintln!("foot: {}", why);
            exit(1);
        }
    }
}

/// The trailers of a note, how many of its bytes were read, and how many lines were looked at.
pub struct NoteFoot {
    pub trailers: Vec<(String, String)>,
    pub bytes: usize,
    pub lines: usize,
}

/// How many bytes are read first; where they are not enough, twice as many.
pub const FIRST: usize = 4096;

/// Reads a note from its end.
pub fn read_foot(note: &mut (impl Read + Seek)) -> Result<NoteFoot, Box<dyn Error>> {
    let len = note.seek(SeekFrom::End(0))?;
    let (mut tail, mut table, mut out) = (Vec::new(), vec![Record::EMPTY; 8], vec![0; 256]);
    loop {
        let whole = tail.len() as u64 == len;
        match list_foot(&tail, whole, &mut table, &mut out) {
            Ok(foot) => {
                let records = table[..foot.records].iter().map(|record| record.from_front(tail.len()));
                let text = |bytes: &[u8]| String::from_utf8_lossy(bytes).into_owned();
                let trailers =
                    records.map(|record| (text(record.token_bytes(&tail)), text(record.value_bytes(&tail, &out))));
                return Ok(NoteFoot {
                    trailers: trailers.collect(),
                    bytes: tail.len(),
                    lines: foot.lines,
                });
            }
            Err(Refusal::MoreBytes) if !whole => longer(note, len, &mut tail)?,
            Err(Refusal::ShortTable { records, bytes } | Refusal::NoRoomForAll { records, bytes }) => {
                table.resize(records, Record::EMPTY);
                out.resize(bytes, 0);
            }
            Err(refusal) => return Err(refusal.into()),
        }
    }
}

/// Makes the tail longer at its front: twice as long, or all of the note.
fn longer(note: &mut (impl Read + Seek), len: u64, tail: &mut Vec<u8>) -> Result<(), Box<dyn Error>> {
    let had = tail.len() as u64;
    let want = len.min((2 * had).max(FIRST as u64));
    note.seek(SeekFrom::End(-(want as i64)))?;
    let mut front = vec![0; (want - had) as usize];
    note.read_exact(&mut front)?;
    tail.splice(..0, front);
    Ok(())
}
