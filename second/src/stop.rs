//! Why a comparison stopped.

use crate::options::Comparison;
use std::io;
use std::path::{Path, PathBuf};

pub enum Stop {
    /// The programs differ, or a claim is broken; a file may show it.
    Found {
        path: Option<PathBuf>,
        report: String,
    },
    /// A file or the other program could not be used.
    Unable(io::Error),
}

impl Stop {
    /// A file of the comparison that shows what was found, by its number and kind.
    pub fn found(
        job: &Comparison,
        file: u64,
        kind: &str,
        path: &Path,
        what: &str,
        lines: &str,
    ) -> Stop {
        let report = format!(
            "second: {what}, seed {}, file {file} ({kind})\nfile {}\n{lines}",
            job.seed,
            path.display()
        );
        Stop::Found {
            path: Some(path.to_path_buf()),
            report,
        }
    }

    /// The file that shows why.
    pub fn shown(&self) -> Option<&Path> {
        match self {
            Stop::Found { path, .. } => path.as_deref(),
            Stop::Unable(_) => None,
        }
    }
}

impl From<io::Error> for Stop {
    fn from(error: io::Error) -> Stop {
        Stop::Unable(error)
    }
}
