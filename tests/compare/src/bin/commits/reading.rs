//! Every commit of a repository, read by both.

use std::io;

use compare::commits;

use crate::repository::Repository;

/// The identifier and the content of every commit.
pub fn contents(repository: &Repository) -> io::Result<Vec<(String, Vec<u8>)>> {
    let ids = repository.git(&["rev-list", "--all"], b"")?;
    let out = repository.git(&["cat-file", "--batch"], &ids)?;
    let mut contents = Vec::new();
    let mut rest = &out[..];
    while let Some(end) = rest.iter().position(|&byte| byte == b'\n') {
        let head = String::from_utf8_lossy(&rest[..end]).into_owned();
        let words: Vec<&str> = head.split(' ').collect();
        let size: usize = words[2].parse().map_err(io::Error::other)?;
        contents.push((words[0].to_owned(), rest[end + 1..][..size].to_vec()));
        rest = &rest[end + 1 + size + 1..];
    }
    Ok(contents)
}

/// What Git says of a commit, by the placeholders of `git log`: NUL between them, and at the end a line that no message has.
const FORMAT: &str = "--format=%H%x00%T%x00%P%x00%an <%ae> %ad%x00%cn <%ce> %cd%x00%e%x00%B%x00%x01end%x01";
const END: &[u8] = b"\0\x01end\x01\n";

/// The two readings of every commit side by side; how many differ.
pub fn compare(repository: &Repository, name: &str) -> io::Result<usize> {
    let contents = contents(repository)?;
    let ids: String = contents.iter().map(|(id, _)| format!("{id}\n")).collect();
    let log = log(repository, "UTF-8", &ids)?;
    let mut failures = usize::from(log.len() != contents.len());
    for ((id, content), said) in contents.iter().zip(log) {
        // Git gives a message as it stands only where it is asked for in the encoding that it claims to have.
        let said = match &read(&said).1 .4[..] {
            b"" => said,
            encoding => self::log(repository, &String::from_utf8_lossy(encoding), id)?.remove(0),
        };
        let (of, theirs) = read(&said);
        if of != id.as_bytes() || ours(content) != Ok(theirs) {
            failures += 1;
            println!("commits: {name}: {id}: Git reads {}", said.escape_ascii());
        }
        if cut(content) != commits::message(content).ok().map(|part| &content[part]) {
            failures += 1;
            println!("commits: {name}: {id} has another message where a script cuts it out");
        }
    }
    println!("commits: {name}: {} commits", contents.len());
    Ok(failures)
}

/// What Git says of each of some commits.
fn log(repository: &Repository, encoding: &str, ids: &str) -> io::Result<Vec<Vec<u8>>> {
    let encoding = format!("--encoding={encoding}");
    let words = ["log", "--no-walk=unsorted", "--stdin", "--date=raw", &encoding, FORMAT];
    let log = repository.git(&words, ids.as_bytes())?;
    Ok(split(&log).into_iter().map(<[u8]>::to_vec).collect())
}

/// The identifier, and the rest of what Git said.
fn read(said: &[u8]) -> (Vec<u8>, Read) {
    let mut cells = said.splitn(7, |&byte| byte == 0).map(<[u8]>::to_vec);
    let mut next = || cells.next().unwrap_or_default();
    (next(), (next(), next(), next(), next(), next(), next()))
}

/// The log, cut into what was said of each commit.
fn split(log: &[u8]) -> Vec<&[u8]> {
    let mut said = Vec::new();
    let mut rest = log;
    while let Some(end) = rest.windows(END.len()).position(|window| window == END) {
        said.push(&rest[..end]);
        rest = &rest[end + END.len()..];
    }
    said
}

/// Tree, parents, author, committer, encoding, message.
type Read = (Vec<u8>, Vec<u8>, Vec<u8>, Vec<u8>, Vec<u8>, Vec<u8>);

/// The same by the port's calls.
fn ours(content: &[u8]) -> Result<Read, commits::Refused> {
    let lines = commits::lines(content)?;
    let all = |name: &[u8]| {
        let named: Vec<&[u8]> = lines
            .iter()
            .filter(|line| &content[line.name.clone()] == name)
            .map(|line| &content[line.content.clone()])
            .collect();
        named.join(&b' ')
    };
    let message = &content[commits::message(content)?];
    Ok((
        all(b"tree"),
        all(b"parent"),
        all(b"author"),
        all(b"committer"),
        all(b"encoding"),
        message.to_vec(),
    ))
}

/// As the scripts do it: what is behind the first empty line.
fn cut(content: &[u8]) -> Option<&[u8]> {
    let at = content.windows(2).position(|two| two == b"\n\n")?;
    Some(&content[at + 2..])
}
