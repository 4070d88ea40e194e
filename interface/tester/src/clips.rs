//! `clips`: the sheet for the studio, each clip with its words in four languages.

use crate::both::Core;
use crate::page::{table, Page};
use crate::sheet;
use crate::words::{Bad, Words};

/// The sheet, for scripts with tabs between the columns.
pub fn run(_: &mut Core, mut words: Words) -> Result<String, Bad> {
    let plain = words.take_flag("--plain");
    words.no_options()?;
    if !words.texts().is_empty() {
        return Err(words.bad(0, "the sheet is shown whole, leave the word out"));
    }
    let mut page = Page::default();
    match plain {
        true => sheet::rows().for_each(|row| page.line(row.join("\t"))),
        false => table(&sheet::rows().map(|row| row.iter().map(|cell| cell.to_string()).collect()).collect::<Vec<_>>(), &[0])
            .iter()
            .for_each(|line| page.line(line)),
    }
    Ok(page.finish())
}
