//! How a run ends: the exit statuses, and what is printed on standard error.

use gaffreel::volume::MOST_SECTORS;
use gaffreel::Refusal;
use std::fmt;
use std::io;
use std::path::{Path, PathBuf};

/// How a command that was carried out ends.
#[derive(Clone, Copy, Debug, PartialEq, Eq)]
pub enum Outcome {
    /// Done, and nothing bad was found.
    Clean,
    /// Bad sectors, bad blocks or a cut that was not survived.
    Bad,
}

/// Why a command was not carried out.
#[derive(Debug)]
pub enum Failure {
    /// The command line is wrong.
    Usage(String),
    /// A file cannot be read or written, or cannot be used.
    File {
        /// The file.
        path: PathBuf,
        /// What is wrong with it.
        reason: String,
    },
    /// The library refused.
    Refused {
        /// The file that it is about.
        path: PathBuf,
        /// The refusal's number.
        number: u32,
        /// What was met, where, and what to do.
        meaning: String,
    },
    /// Standard output cannot be written.
    Output(io::Error),
}

impl Outcome {
    /// The exit status.
    pub fn status(self) -> u8 {
        match self {
            Outcome::Clean => 0,
            Outcome::Bad => 1,
        }
    }
}

impl Failure {
    /// A wrong command line.
    pub fn usage(message: impl Into<String>) -> Failure {
        Failure::Usage(message.into())
    }

    /// A file that cannot be used.
    pub fn file(path: &Path, reason: impl Into<String>) -> Failure {
        Failure::File {
            path: path.into(),
            reason: reason.into(),
        }
    }

    /// A file that cannot be read.
    pub fn unreadable(path: &Path, error: io::Error) -> Failure {
        Failure::file(path, format!("cannot be read: {error}"))
    }

    /// A file that cannot be written.
    pub fn unwritable(path: &Path, error: io::Error) -> Failure {
        Failure::file(path, format!("cannot be written: {error}"))
    }

    /// A refusal of a volume's call on an image.
    pub fn refused(path: &Path, refusal: Refusal) -> Failure {
        let meaning = match refusal {
            Refusal::LengthOrState => "the image is not whole sectors of 512 bytes, \
                 or has more than 65,536 of them: restore it from a whole copy"
                .into(),
            Refusal::VolumeTooShort { needed } if needed > MOST_SECTORS as u64 => format!(
                "the layout needs {needed} sectors, and no volume has more than {MOST_SECTORS}: \
                 check the number of reserved sectors, or restore the whole image from a good copy"
            ),
            other => other.to_string(),
        };
        Failure::refused_as(path, refusal, meaning)
    }

    /// A logical sector that the volume does not have.
    pub fn no_sector(path: &Path, sector: u64) -> Failure {
        let refusal = Refusal::Sector;
        Failure::refused_as(path, refusal, format!("sector {sector}: {refusal}"))
    }

    /// A refusal with a meaning of its own.
    pub fn refused_as(path: &Path, refusal: Refusal, meaning: impl Into<String>) -> Failure {
        Failure::Refused {
            path: path.into(),
            number: refusal.number(),
            meaning: meaning.into(),
        }
    }

    /// The exit status.
    pub fn status(&self) -> u8 {
        match self {
            Failure::Refused { .. } => 2,
            Failure::Usage(_) | Failure::File { .. } | Failure::Output(_) => 3,
        }
    }

    /// Whether nobody reads standard output any more, which needs no message.
    pub fn is_broken_pipe(&self) -> bool {
        matches!(self, Failure::Output(error) if error.kind() == io::ErrorKind::BrokenPipe)
    }
}

impl From<io::Error> for Failure {
    fn from(error: io::Error) -> Failure {
        Failure::Output(error)
    }
}

impl fmt::Display for Failure {
    fn fmt(&self, f: &mut fmt::Formatter<'_>) -> fmt::Result {
        match self {
            Failure::Usage(message) => f.write_str(message),
            Failure::File { path, reason } => write!(f, "{}: {reason}", path.display()),
            Failure::Refused {
                path,
                number,
                meaning,
            } => write!(f, "{}: refused {number}: {meaning}", path.display()),
            Failure::Output(error) => write!(f, "standard output cannot be written: {error}"),
        }
    }
}
