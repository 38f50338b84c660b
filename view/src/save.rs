//! A file that is written whole or not at all.

use std::fs::{self, File};
use std::io::{self, Write};
use std::path::{Path, PathBuf};
use std::process;

/// Where a picture goes: the file itself, behind links. Devices and folders are not written to, nor is a
/// file that is one of the sheets.
pub fn target(out: &Path, sheets: &[&Path]) -> Result<PathBuf, String> {
    let Ok(found) = fs::metadata(out) else {
        return match fs::symlink_metadata(out) {
            Ok(_) => Err("it is a link to a file that is not there".to_string()),
            Err(_) => Ok(out.to_path_buf()),
        };
    };
    if !found.is_file() {
        return Err("it is there and no ordinary file".to_string());
    }
    if found.permissions().readonly() {
        return Err("it is there and may not be written".to_string());
    }
    let whole = fs::canonicalize(out).map_err(|error| error.to_string())?;
    for sheet in sheets {
        if fs::canonicalize(sheet).is_ok_and(|sheet| sheet == whole) {
            return Err("it is the sheet, which a picture must not replace".to_string());
        }
    }
    Ok(whole)
}

/// Writes a file beside the target and gives it the target's name once it is whole.
pub fn whole(target: &Path, content: &[u8]) -> io::Result<()> {
    let name = target.file_name().ok_or(io::ErrorKind::InvalidInput)?;
    let mut beside = name.to_os_string();
    beside.push(format!(".{}.part", process::id()));
    let beside = target.with_file_name(beside);
    let mut file = File::options().write(true).create_new(true).open(&beside)?;
    let written = file
        .write_all(content)
        .and_then(|()| file.sync_all())
        .and_then(|()| fs::rename(&beside, target));
    if written.is_err() {
        // The file is ours, and there is nothing to be said if it cannot be removed either.
        let _ = fs::remove_file(&beside);
    }
    written
}
