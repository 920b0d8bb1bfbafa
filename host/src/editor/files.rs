//! Files: read whole; written beside, all of them, and then renamed, so that none is ever half written or changed without the others.

use std::fs::{self, File};
use std::io::{self, Write};
use std::path::{Path, PathBuf};

use crate::Failure;
use voldrekka::text::Document;

pub fn text(file: &Path) -> Result<String, Failure> {
    fs::read_to_string(file).map_err(|e| failed(file, "cannot be read", e))
}

pub fn read(file: &Path) -> Result<Document, Failure> {
    Document::read(&text(file)?).map_err(|e| Failure::Text(format!("{}: {e}", file.display())))
}

/// A text on its way: it stands beside its file until it is renamed, and goes if it never is.
struct Waiting {
    file: PathBuf,
    beside: PathBuf,
}

impl Waiting {
    fn write(file: &Path, text: &str) -> io::Result<Waiting> {
        // A link stays a link: what it leads to is replaced.
        let file = fs::canonicalize(file).unwrap_or_else(|_| file.to_path_buf());
        let mut name = file.file_name().unwrap_or_default().to_os_string();
        name.push(format!(".{}.new", std::process::id()));
        let waiting = Waiting { beside: file.with_file_name(name), file };
        let mut new = File::create(&waiting.beside)?;
        new.write_all(text.as_bytes())?;
        if let Ok(old) = fs::metadata(&waiting.file) {
            new.set_permissions(old.permissions())?;
        }
        new.sync_all()?;
        Ok(waiting)
    }

    fn rename(self) -> io::Result<()> {
        fs::rename(&self.beside, &self.file)
    }
}

impl Drop for Waiting {
    fn drop(&mut self) {
        // After a renaming there is nothing left to remove.
        let _ = fs::remove_file(&self.beside);
    }
}

/// Replaces files by texts. Where a text cannot be written, every file is as it was.
pub fn write(texts: &[(&Path, &str)]) -> Result<(), Failure> {
    let mut waiting = Vec::new();
    for (file, text) in texts {
        waiting.push(Waiting::write(file, text).map_err(|e| failed(file, "cannot be written", e))?);
    }
    for ((file, _), waiting) in texts.iter().zip(waiting) {
        waiting.rename().map_err(|e| failed(file, "cannot be written", e))?;
    }
    Ok(())
}

fn failed(file: &Path, what: &str, error: io::Error) -> Failure {
    Failure::File(format!("{} {what}: {error}", file.display()))
}
