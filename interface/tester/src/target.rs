//! A file that is to be written: one that exists is left as it is, unless over=yes is said.

use std::fs::OpenOptions;
use std::io::Write;
use std::path::Path;

use crate::input;
use crate::words::{Bad, Words};

/// A file, the option before its name, and whether it may be written over.
pub struct Target {
    option: &'static str,
    pub file: String,
    over: bool,
}

impl Target {
    /// The file that stands behind an option, with what over= says of it.
    pub fn of(words: &mut Words, option: &'static str, file: Option<String>) -> Result<Option<Target>, Bad> {
        let over = words.take("over", |word| match (word, &file) {
            (yes, Some(_)) if yes.eq_ignore_ascii_case("yes") => Ok(()),
            (_, None) => Err(format!("{option}FILE, the file to write, is missing")),
            _ => Err("yes is needed, or leave the word out".to_string()),
        })?;
        Ok(file.map(|file| Target { option, file, over: over.is_some() }))
    }

    /// What is wrong with the file.
    fn bad(&self, why: &str) -> Bad {
        Bad::new(format!("{}{}: {why}", self.option, self.file))
    }

    /// Refuses a folder, a file in a folder that does not exist, and a file that exists, unless over=yes was said.
    pub fn check(&self) -> Result<(), Bad> {
        let path = Path::new(&self.file);
        let folder = path.parent().filter(|folder| !folder.as_os_str().is_empty() && !folder.is_dir());
        match folder {
            Some(folder) => Err(self.bad(&format!("there is no folder {}; make it first", folder.display()))),
            None if path.is_dir() => Err(self.bad("this is a folder; write the name of a file in it")),
            None if path.exists() && !self.over => {
                Err(self.bad("this file exists; take another name, or write over=yes to lose what it holds"))
            }
            None => Ok(()),
        }
    }

    /// Writes the file.
    pub fn write(&self, content: &[u8]) -> Result<(), Bad> {
        self.check()?;
        let mut options = OpenOptions::new();
        match self.over {
            true => options.write(true).create(true).truncate(true),
            false => options.write(true).create_new(true),
        };
        let written = options.open(&self.file).and_then(|mut file| file.write_all(content));
        written.map_err(|error| self.bad(&input::told(&error)))
    }
}
