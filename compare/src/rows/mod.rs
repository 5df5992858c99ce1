//! The rows of crates/samples, answered by the second program: it makes what crates/samples/stdout must be from the table
//! crates/samples/stdin and documents 01 and 02 alone.

mod given;
mod lines;
mod table;
mod two_way;
mod vertices;

use std::path::Path;
use std::{fs, io};

/// The text that the samples program must print for a table: a line for each row and each call that its section names.
fn text_for(table: &str) -> String {
    let mut text = String::new();
    for section in table::sections(table) {
        for call in &section.calls {
            for row in &section.rows {
                text += &format!("{call} {}:{}\n", row.text("name"), lines::answer(call, row));
            }
        }
    }
    text
}

/// The made text and the stored one, each by its lines.
pub struct Lines {
    pub made: Vec<String>,
    pub stored: Vec<String>,
}

fn lines(text: &str) -> Vec<String> {
    text.split_inclusive('\n').map(str::to_string).collect()
}

/// The text for the table of a samples folder.
pub fn made(folder: &Path) -> io::Result<String> {
    Ok(text_for(&fs::read_to_string(folder.join("stdin"))?))
}

impl Lines {
    pub fn of(folder: &Path) -> io::Result<Lines> {
        let stored = fs::read_to_string(folder.join("stdout"))?;
        Ok(Lines { made: lines(&made(folder)?), stored: lines(&stored) })
    }

    pub fn compared(&self) -> usize {
        self.made.len().max(self.stored.len())
    }

    /// The lines that differ, byte for byte; a missing one and one too many differ as well.
    pub fn differences(&self) -> Vec<String> {
        let differing = (0..self.compared()).filter(|&at| self.made.get(at) != self.stored.get(at));
        differing
            .map(|at| format!("line {}: stored {:?}, made {:?}", at + 1, self.stored.get(at), self.made.get(at)))
            .collect()
    }
}
