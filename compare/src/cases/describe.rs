//! A case in words, so that a difference can be read without running anything.

use super::call::Search;
use super::chains::Chain;
use super::{Call, Case};
use std::fmt::{Debug, Display, Formatter, Result};

/// The bytes in hex; of many only the first.
fn hex(bytes: &[u8]) -> String {
    let shown: Vec<String> = bytes.iter().take(60).map(|byte| format!("{byte:02x}")).collect();
    let rest = if bytes.len() > 60 { " .." } else { "" };
    format!("[{}: {}{rest}]", bytes.len(), shown.join(" "))
}

fn words<T: Debug>(words: &[T]) -> String {
    let rest = if words.len() > 30 { " .." } else { "" };
    format!("[{}: {:?}{rest}]", words.len(), &words[..words.len().min(30)])
}

impl Display for Search {
    fn fmt(&self, f: &mut Formatter) -> Result {
        let Search { ring, line, allowance, room, join } = self;
        write!(f, "ring {} line {} k {allowance} room {room}", hex(ring), hex(line))?;
        join.as_ref().map_or(Ok(()), |join| write!(f, " closed, join area {}", hex(join)))
    }
}

impl Display for Call {
    fn fmt(&self, f: &mut Formatter) -> Result {
        match self {
            Call::Survey(search) => write!(f, "survey {search}"),
            Call::Scan(search) => write!(f, "scan {search}"),
            Call::Report { cell, ring_number, search, book } => {
                write!(f, "report cell {cell} ring number {ring_number} {search} book {}", hex(book))
            }
            Call::Pack { words: given, room } => write!(f, "pack {} room {room}", words(given)),
            Call::Unpack { book, room } => write!(f, "unpack {} room {room}", hex(book)),
            Call::Import { numbers, room } => write!(f, "import {} room {room}", words(numbers)),
        }
    }
}

impl Display for Case {
    fn fmt(&self, f: &mut Formatter) -> Result {
        match self {
            Case::Call(call, placement) => write!(f, "{call} placed {placement:?}"),
            Case::TwoWay(search, placement) => write!(f, "two-way scan {search} placed {placement:?}"),
            Case::Three(calls, placement) => write!(f, "survey, scan, {} placed {placement:?}", calls[2]),
            Case::Two(([first, second], bond), placement) => {
                write!(f, "{first} and {second}: {bond:?}, placed {placement:?}")
            }
            Case::Chain(Chain { ring, boundaries, allowance, drawn }, placement) => {
                let boundaries: Vec<String> = boundaries.iter().map(|numbers| words(numbers)).collect();
                write!(f, "import {} and {}, scan two ways ", words(ring), boundaries.join(", "))?;
                write!(f, "k {allowance}, {drawn:?}, placed {placement:?}")
            }
            Case::RoundTrip(given) => write!(f, "round trip {}", words(given)),
            Case::BookTrip(book) => write!(f, "round trip of the book {}", hex(book)),
            Case::Input(input) => write!(f, "input {} {:?}", hex(&input.bytes), input.manner),
            Case::Sample(_, index) => write!(f, "sample {index}"),
        }
    }
}
