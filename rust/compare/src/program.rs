//! The program that answers frames, and how it is started.

use std::ffi::OsString;
use std::path::Path;
use std::process::{Child, Command, Stdio};
use std::time::Duration;

/// How long a program may take for one answer; the longest takes well under a second.
const PATIENCE: Duration = Duration::from_secs(120);

/// A program by the words that start it.
#[derive(Clone, Debug)]
pub struct Program {
    words: Vec<OsString>,
    pub(crate) patience: Duration,
}

impl Program {
    /// The proved program `calls` of the repository, or a sentence that says what is wanting.
    pub fn calls() -> Result<Self, String> {
        Program::in_repository(&Path::new(env!("CARGO_MANIFEST_DIR")).join("../.."))
    }

    /// The program that `rt run` leaves in a repository.
    pub fn in_repository(root: &Path) -> Result<Self, String> {
        let program = root.join("crates/calls/out/calls");
        if !program.is_file() {
            return Err("There is no crates/calls/out/calls to compare: run `rt run` in crates/calls.".into());
        }
        Ok(Program::by_words([program]))
    }

    /// A program by its path and its arguments.
    pub fn by_words<W: Into<OsString>>(words: impl IntoIterator<Item = W>) -> Self {
        Program { words: words.into_iter().map(Into::into).collect(), patience: PATIENCE }
    }

    /// The same program, with another patience.
    pub fn with_patience(self, patience: Duration) -> Self {
        Program { patience, ..self }
    }

    pub(crate) fn start(&self) -> Result<Child, String> {
        let (first, others) = self.words.split_first().ok_or("no program was named")?;
        let mut command = Command::new(first);
        command.args(others).stdin(Stdio::piped()).stdout(Stdio::piped());
        command.spawn().map_err(|error| format!("{} cannot be started: {error}", first.display()))
    }
}
