//! The file in which every mismatch is left, with its input, both answers and the command that shows it again.

use std::fs::File;
use std::io::Write;

/// How many octets the file has at most, but for its last lines. The first mismatch that does not fit, and all after it, are only counted.
const MOST: usize = 50_000_000;

#[derive(Default)]
pub struct Differences {
    file: Option<(String, File)>,
    octets: usize,
    full: bool,
}

impl Differences {
    /// A file, which is made anew; without a name there is none.
    pub fn at(path: &Option<String>) -> Differences {
        let file = path.as_ref().map(|path| match File::create(path) {
            Ok(file) => (path.clone(), file),
            Err(problem) => crate::refuse(&format!("{}: {}", path, problem)),
        });
        Differences { file, ..Differences::default() }
    }

    /// The file's name, if there is a file.
    pub fn name(&self) -> Option<&str> {
        self.file.as_ref().map(|(name, _)| name.as_str())
    }

    /// Whether another mismatch may still be written.
    pub fn has_room(&self) -> bool {
        self.file.is_some() && !self.full
    }

    /// Whether this mismatch was written.
    pub fn write(&mut self, mismatch: &str) -> bool {
        self.full = self.full || self.octets + mismatch.len() > MOST;
        if !self.has_room() {
            return false;
        }
        self.octets += mismatch.len();
        self.line(mismatch);
        true
    }

    /// Writes text whatever its length. It is in the file at once, so that a run that is broken off leaves what it found.
    pub fn line(&mut self, text: &str) {
        if let Some((name, file)) = &mut self.file {
            file.write_all(text.as_bytes()).unwrap_or_else(|problem| crate::refuse(&format!("{}: {}", name, problem)));
        }
    }
}
