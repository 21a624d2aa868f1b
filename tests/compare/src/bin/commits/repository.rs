//! A repository, and Git run in it away from every setting of the machine.

use std::{
    env, fs,
    io::{self, Write},
    os::unix::fs::PermissionsExt,
    path::{Path, PathBuf},
    process::{Command, Stdio},
};

pub struct Repository {
    folder: PathBuf,
    made: bool,
}

/// In a signer's place: signs everything alike, and keeps what it is given to verify.
const SIGNER: &str = "#!/bin/sh
here=$(dirname \"$0\")
while [ $# -gt 0 ]; do
    if [ \"$1\" = --verify ]; then
        cp \"$2\" \"$here/signature\"
        cat >\"$here/payload\"
        exit 1
    fi
    shift
done
cat >/dev/null
echo '[GNUPG:] BEGIN_SIGNING' >&2
echo '[GNUPG:] SIG_CREATED ' >&2
printf -- '-----BEGIN PGP SIGNATURE-----\\n\\n stands in\\n\\tfor one\\n\\n-----END PGP SIGNATURE-----\\n'
";

impl Repository {
    /// A new one, whose identifiers are of a format that Git names: `sha1` or `sha256`.
    pub fn new(format: &str) -> io::Result<Repository> {
        let folder = env::temp_dir().join(format!("sluicepod-commits-{}-{format}", std::process::id()));
        fs::create_dir(&folder)?;
        let repository = Repository { folder, made: true };
        repository.git(&["init", "--quiet", &format!("--object-format={format}")], b"")?;
        let signer = repository.signer();
        fs::write(&signer, SIGNER)?;
        fs::set_permissions(&signer, fs::Permissions::from_mode(0o755))?;
        Ok(repository)
    }

    /// One that is there, which is only read.
    pub fn at(folder: &Path) -> Repository {
        Repository {
            folder: folder.to_owned(),
            made: false,
        }
    }

    fn signer(&self) -> PathBuf {
        self.folder.join(".git").join("signer")
    }

    /// What the signer's place was given to verify: the signature and what was signed.
    pub fn verified(&self) -> io::Result<(Vec<u8>, Vec<u8>)> {
        let beside = self.signer();
        Ok((
            fs::read(beside.with_file_name("signature"))?,
            fs::read(beside.with_file_name("payload"))?,
        ))
    }

    /// What Git prints; an error where it fails.
    pub fn git(&self, words: &[&str], input: &[u8]) -> io::Result<Vec<u8>> {
        let (good, out) = self.try_git(words, input)?;
        if !good {
            return Err(io::Error::other(format!("git {} failed", words.join(" "))));
        }
        Ok(out)
    }

    /// The first line of what Git prints.
    pub fn word(&self, words: &[&str], input: &[u8]) -> io::Result<String> {
        let out = self.git(words, input)?;
        Ok(String::from_utf8_lossy(&out).trim_end().to_owned())
    }

    /// Whether Git succeeds, and what it prints, standard error with it where it fails.
    pub fn try_git(&self, words: &[&str], input: &[u8]) -> io::Result<(bool, Vec<u8>)> {
        let mut child = self
            .command()
            .args(words)
            .stdin(Stdio::piped())
            .stdout(Stdio::piped())
            .stderr(Stdio::piped())
            .spawn()?;
        let mut pipe = child.stdin.take().expect("a pipe");
        let input = input.to_owned();
        let writer = std::thread::spawn(move || pipe.write_all(&input));
        let output = child.wait_with_output()?;
        let _ = writer.join().expect("the writer ends");
        let mut out = output.stdout;
        if !output.status.success() {
            out.extend_from_slice(&output.stderr);
        }
        Ok((output.status.success(), out))
    }

    fn command(&self) -> Command {
        let mut git = Command::new("git");
        git.current_dir(&self.folder)
            .env_clear()
            .envs(env::var_os("PATH").map(|path| ("PATH", path)))
            .env("LC_ALL", "C")
            .env("HOME", "/nonexistent")
            .env("GIT_CONFIG_NOSYSTEM", "1")
            .env("GIT_CONFIG_GLOBAL", "/dev/null")
            .args([
                "-c",
                "safe.directory=*",
                "-c",
                "user.name=A. Driver",
                "-c",
                "user.email=a@depot.example",
            ]);
        if self.made {
            git.arg("-c").arg(format!("gpg.program={}", self.signer().display()));
        }
        git
    }
}

impl Drop for Repository {
    fn drop(&mut self) {
        if self.made {
            let _ = fs::remove_dir_all(&self.folder);
        }
    }
}
