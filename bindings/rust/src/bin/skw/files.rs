// Where records come from and where results go. A file is whole or as it was: it is written beside its place and then renamed.

use std::ffi::{OsStr, OsString};
use std::fs::{self, File, OpenOptions};
use std::io::{self, stdin, stdout, ErrorKind, IsTerminal, Read, Write};
use std::path::{Path, PathBuf};
use std::process::id;

use crate::failure::Failure;

/// No record is as long as this; more than this is not read of what may never end.
const MOST: u64 = 1 << 25;

/// What is read.
pub enum Input {
    Standard,
    File(PathBuf),
}

impl Input {
    /// The file of that name; standard input for none or a dash, unless a person would have to type it.
    pub fn of(file: Option<OsString>) -> Option<Input> {
        match file {
            Some(name) if name != "-" => Some(Input::File(name.into())),
            _ => (!stdin().is_terminal()).then_some(Input::Standard),
        }
    }

    /// What messages call it.
    pub fn name(&self) -> String {
        match self {
            Input::Standard => "standard input".into(),
            Input::File(path) => path.display().to_string(),
        }
    }

    pub fn bytes(&self) -> Result<Vec<u8>, Failure> {
        let mut bytes = Vec::new();
        let read = match self {
            Input::Standard => stdin().take(MOST).read_to_end(&mut bytes),
            Input::File(path) => File::open(path).and_then(|file| file.take(MOST).read_to_end(&mut bytes)),
        };
        read.map_err(|error| Failure::Trouble(format!("{} cannot be read: {error}", self.name())))?;
        Ok(bytes)
    }
}

/// Where the result goes.
pub enum Output {
    Standard,
    File(PathBuf),
}

impl Output {
    pub fn of(file: Option<&OsStr>) -> Output {
        match file {
            Some(name) if name != "-" => Output::File(name.into()),
            _ => Output::Standard,
        }
    }

    pub fn name(&self) -> String {
        match self {
            Output::Standard => "standard output".into(),
            Output::File(path) => path.display().to_string(),
        }
    }

    pub fn is_terminal(&self) -> bool {
        matches!(self, Output::Standard) && stdout().is_terminal()
    }

    /// Whether it can be written, as far as one can know before the work is done.
    pub fn ready(&self) -> Result<(), Failure> {
        let Output::File(path) = self else { return Ok(()) };
        let tried = Place::of(path).and_then(|place| match place {
            // To open a pipe and close it again would be its end.
            Place::Device => Ok(()),
            Place::Regular(file) => {
                let beside = beside(&file);
                OpenOptions::new().write(true).create_new(true).open(&beside)?;
                fs::remove_file(&beside)
            }
        });
        tried.map_err(|error| self.trouble(error))
    }

    /// All of it, or, in a file, nothing.
    pub fn put(&self, bytes: &[u8]) -> Result<(), Failure> {
        let put = match self {
            Output::Standard => {
                let mut out = stdout().lock();
                match out.write_all(bytes).and_then(|()| out.flush()) {
                    Err(error) if error.kind() == ErrorKind::BrokenPipe => return Err(Failure::Closed),
                    other => other,
                }
            }
            Output::File(path) => replace(path, bytes),
        };
        put.map_err(|error| self.trouble(error))
    }

    pub fn print(&self, text: &str) -> Result<(), Failure> {
        self.put(text.as_bytes())
    }

    fn trouble(&self, error: io::Error) -> Failure {
        Failure::Trouble(format!("{} cannot be written: {error}", self.name()))
    }
}

/// Text on standard output.
pub fn print(text: &str) -> Result<(), Failure> {
    Output::Standard.print(text)
}

/// What stands, or is to stand, where a result goes.
enum Place {
    /// A file, by its own name, where a link led to it.
    Regular(PathBuf),
    /// What is written to and never replaced, as /dev/null or a pipe.
    Device,
}

impl Place {
    fn of(path: &Path) -> io::Result<Place> {
        match fs::metadata(path) {
            Ok(found) if found.is_dir() => Err(ErrorKind::IsADirectory.into()),
            Ok(found) if found.is_file() => {
                // What may not be written is not replaced either.
                OpenOptions::new().write(true).open(path)?;
                Ok(Place::Regular(fs::canonicalize(path)?))
            }
            Ok(_) => Ok(Place::Device),
            // A link to nothing stays a link, and what it names is made.
            Err(error) if error.kind() == ErrorKind::NotFound => match fs::read_link(path) {
                Ok(target) => Ok(Place::Regular(path.parent().unwrap_or(Path::new("")).join(target))),
                Err(_) => Ok(Place::Regular(path.to_path_buf())),
            },
            Err(error) => Err(error),
        }
    }
}

/// A name of our own in the same folder, so that renaming moves nothing between disks.
fn beside(file: &Path) -> PathBuf {
    let mut name = OsString::from(".");
    name.push(file.file_name().unwrap_or(OsStr::new("skw")));
    name.push(format!(".skw-{}", id()));
    file.with_file_name(name)
}

fn replace(path: &Path, bytes: &[u8]) -> io::Result<()> {
    let file = match Place::of(path)? {
        Place::Device => return OpenOptions::new().write(true).open(path)?.write_all(bytes),
        Place::Regular(file) => file,
    };
    let beside = beside(&file);
    let written = write_new(&beside, bytes, &file).and_then(|()| fs::rename(&beside, &file));
    if written.is_err() {
        let _ = fs::remove_file(&beside);
    }
    written
}

/// A new file with the rights of the one whose place it takes, on the disk before it is renamed.
fn write_new(beside: &Path, bytes: &[u8], file: &Path) -> io::Result<()> {
    let mut new = OpenOptions::new().write(true).create_new(true).open(beside)?;
    if let Ok(old) = fs::metadata(file) {
        new.set_permissions(old.permissions())?;
    }
    new.write_all(bytes)?;
    new.sync_all()
}
