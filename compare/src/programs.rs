// Starts a proved program, as rt built it, on the bytes of its standard input.

mod called;
pub mod gridread;
pub mod gridrun;
pub mod gridstep;

use std::io::{ErrorKind, Read, Write};
use std::path::{Path, PathBuf};
use std::process::{Command, Stdio};

/// Where `rt ci` and `rt run` leave programs.
pub struct Starter {
    crates: PathBuf,
}

impl Starter {
    pub fn find() -> Result<Starter, String> {
        let crates = Path::new("crates").to_path_buf();
        if crates.is_dir() {
            Ok(Starter { crates })
        } else {
            Err("there is no crates/ here; run this from the top of the repository".to_string())
        }
    }

    fn path(&self, program: &str) -> PathBuf {
        self.crates.join(program).join("out").join(program)
    }

    /// Whether rt has built the program.
    pub fn has(&self, program: &str) -> Result<(), String> {
        let path = self.path(program);
        if path.exists() {
            Ok(())
        } else {
            Err(format!("no {}: rt run in crates/{program} makes it, and so does rt ci", path.display()))
        }
    }

    /// All that the program writes to its standard output. What keeps it from ending well is told in its place.
    pub fn output(&self, program: &str, arguments: &[String], input: &[u8]) -> Result<Vec<u8>, String> {
        let told = |error: std::io::Error| format!("{program}: {error}");
        let mut child = Command::new(self.path(program))
            .args(arguments)
            .stdin(Stdio::piped())
            .stdout(Stdio::piped())
            .stderr(Stdio::null())
            .spawn()
            .map_err(told)?;
        // The programs read all they want before they write, so that one thread can do both.
        if let Some(mut pipe) = child.stdin.take() {
            match pipe.write_all(input) {
                // A program stops reading where a record is too long for it.
                Err(error) if error.kind() != ErrorKind::BrokenPipe => return Err(told(error)),
                _ => {}
            }
        }
        let mut output = Vec::new();
        if let Some(mut pipe) = child.stdout.take() {
            pipe.read_to_end(&mut output).map_err(told)?;
        }
        let status = child.wait().map_err(told)?;
        if status.success() {
            Ok(output)
        } else {
            Err(format!("{program} ended with {status}"))
        }
    }
}
