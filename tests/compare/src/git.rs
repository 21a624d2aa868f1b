//! `git interpret-trailers`, run away from every setting of the machine.

use std::{
    env, fs,
    io::{self, Read},
    path::{Path, PathBuf},
    process::{Command, Stdio},
    thread,
    time::{Duration, Instant},
};

use crate::answers::Trailer;

/// Git from the search path, in a folder of its own that is no repository.
pub struct Git {
    folder: PathBuf,
}

/// A message whose answer shows where the answer to the one before it ends.
const END: &[u8] = b"\n\nend-of-the-message: here\n";
const END_ANSWER: &[u8] = b"end-of-the-message: here\n";

impl Git {
    pub fn new() -> io::Result<Git> {
        let memory = Path::new("/dev/shm");
        let base = if memory.is_dir() {
            memory.to_owned()
        } else {
            env::temp_dir()
        };
        let folder = base.join(format!("sluicepod-git-{}", std::process::id()));
        fs::create_dir(&folder)?;
        fs::write(folder.join("end"), END)?;
        Ok(Git { folder })
    }

    /// The version, such as `2.39.5`.
    pub fn version(&self) -> io::Result<String> {
        let out = self.command(&[]).arg("version").output()?.stdout;
        let line = String::from_utf8_lossy(&out);
        Ok(line.trim().trim_start_matches("git version ").to_owned())
    }

    /// The answer to one message: each trailer as `token: value` on a line. A setting is as in `trailer.a.key=A`. None
    /// if Git does not end within the time.
    pub fn parse(&self, message: &[u8], settings: &[&str], within: Duration) -> io::Result<Option<Vec<u8>>> {
        fs::write(self.folder.join("0"), message)?;
        let mut git = self.command(settings);
        git.args(["interpret-trailers", "--parse", "0"]);
        output(git, within)
    }

    /// The answers to many messages, from few runs of Git.
    pub fn parse_all(&self, messages: &[Vec<u8>], settings: &[&str]) -> io::Result<Vec<Vec<u8>>> {
        self.each(messages, settings, &["--parse"], END_ANSWER)
    }

    /// The messages with one trailer more, from few runs of Git: at the end, whatever trailers are there, and a line `---` is
    /// no divider.
    pub fn add_all(&self, messages: &[Vec<u8>], trailer: &str) -> io::Result<Vec<Vec<u8>>> {
        let end = [END, trailer.as_bytes(), b"\n"].concat();
        let words = [
            "--no-divider",
            "--where",
            "end",
            "--if-exists",
            "add",
            "--if-missing",
            "add",
            "--trailer",
            trailer,
        ];
        self.each(messages, &[], &words, &end)
    }

    /// The answers to many messages; `end_answer` is the one to the message that stands behind each.
    fn each(
        &self,
        messages: &[Vec<u8>],
        settings: &[&str],
        words: &[&str],
        end_answer: &[u8],
    ) -> io::Result<Vec<Vec<u8>>> {
        let mut answers = Vec::with_capacity(messages.len());
        for some in messages.chunks(1000) {
            let mut git = self.command(settings);
            git.arg("interpret-trailers").args(words);
            for (number, message) in some.iter().enumerate() {
                let name = number.to_string();
                fs::write(self.folder.join(&name), message)?;
                git.args([&name, "end"]);
            }
            let out = output(git, Duration::from_secs(60))?.ok_or_else(|| io::Error::other("Git does not end"))?;
            let mut rest = &out[..];
            for _ in some {
                let end = rest
                    .windows(end_answer.len())
                    .position(|window| window == end_answer)
                    .ok_or_else(|| io::Error::other("an answer of Git is missing"))?;
                answers.push(rest[..end].to_vec());
                rest = &rest[end + end_answer.len()..];
            }
        }
        Ok(answers)
    }

    fn command(&self, settings: &[&str]) -> Command {
        let mut git = Command::new("git");
        git.current_dir(&self.folder)
            .env_clear()
            .envs(env::var_os("PATH").map(|path| ("PATH", path)))
            .env("LC_ALL", "C")
            .env("HOME", "/nonexistent")
            .env("XDG_CONFIG_HOME", "/nonexistent")
            .env("GIT_CONFIG_NOSYSTEM", "1")
            .env("GIT_CONFIG_GLOBAL", "/dev/null")
            .env("GIT_CEILING_DIRECTORIES", self.folder.parent().expect("a base"));
        for setting in settings {
            git.args(["-c", setting]);
        }
        git
    }
}

impl Drop for Git {
    fn drop(&mut self) {
        let _ = fs::remove_dir_all(&self.folder);
    }
}

/// What a command prints, or none if it does not end within the time; it is then stopped.
fn output(mut command: Command, within: Duration) -> io::Result<Option<Vec<u8>>> {
    let mut child = command.stdin(Stdio::null()).stdout(Stdio::piped()).spawn()?;
    let mut pipe = child.stdout.take().expect("a pipe");
    let reader = thread::spawn(move || {
        let mut out = Vec::new();
        pipe.read_to_end(&mut out).map(|_| out)
    });
    let from = Instant::now();
    let status = loop {
        if let Some(status) = child.try_wait()? {
            break status;
        }
        if from.elapsed() > within {
            child.kill()?;
            child.wait()?;
            return Ok(None);
        }
        thread::sleep(Duration::from_millis(1));
    };
    let out = reader.join().expect("the reader ends")?;
    if !status.success() {
        return Err(io::Error::other("git interpret-trailers failed"));
    }
    Ok(Some(out))
}

/// Trailers as Git prints them.
pub fn printed(input: &[u8], trailers: &[Trailer]) -> Vec<u8> {
    let mut out = Vec::new();
    for trailer in trailers {
        out.extend_from_slice(trailer.token.of(input));
        out.extend_from_slice(b": ");
        out.extend_from_slice(trailer.value.bytes(input));
        out.push(b'\n');
    }
    out
}
