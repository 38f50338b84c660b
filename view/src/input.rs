//! Where a sheet comes from.

use std::ffi::OsStr;
use std::fs::File;
use std::io::{self, IsTerminal, Read};
use std::path::PathBuf;
use tankcurve::MAX_SHEET;

/// A file, or standard input.
#[derive(Clone, Debug, PartialEq, Eq)]
pub enum Source {
    Standard,
    File(PathBuf),
}

impl Source {
    /// The name in messages.
    pub fn name(&self) -> String {
        match self {
            Source::Standard => "standard input".to_string(),
            Source::File(path) => path.display().to_string(),
        }
    }

    /// The name in a picture: without folders and without `.sheet`.
    pub fn title(&self) -> String {
        match self {
            Source::Standard => self.name(),
            Source::File(path) => {
                let ending = path.extension() == Some(OsStr::new("sheet"));
                let name = if ending {
                    path.file_stem()
                } else {
                    path.file_name()
                };
                name.unwrap_or(path.as_os_str())
                    .to_string_lossy()
                    .into_owned()
            }
        }
    }

    /// The bytes, one more than a sheet may have at most: later ones change no answer.
    pub fn read(&self) -> io::Result<Vec<u8>> {
        let mut sheet = Vec::new();
        let most = MAX_SHEET as u64 + 1;
        match self {
            Source::Standard => io::stdin().lock().take(most).read_to_end(&mut sheet)?,
            Source::File(path) => File::open(path)?.take(most).read_to_end(&mut sheet)?,
        };
        Ok(sheet)
    }

    /// Whether a person has to type the sheet.
    pub fn is_typed(&self) -> bool {
        *self == Source::Standard && io::stdin().is_terminal()
    }
}
