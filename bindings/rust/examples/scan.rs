//! Scans a line for a ring and prints the findings. `cargo run --example scan` prints scan.out, the file beside this one.

use outlines::{Refused, Search, scan};

fn main() -> Result<(), Refused> {
    let search = Search { ring: b"GGGTCTA", line: b"GATACGATACCTAGGGTGATAGAATAG", allowance: 1 };
    let mut words = vec![0; search.room()];
    let counts = scan(search, &mut words)?;
    println!("found {} looks {}", counts.found, counts.looks);
    for finding in counts.findings(&words) {
        let (start, rotation) = (finding.start, finding.rotation);
        println!("start {start} rotation {rotation} distance {} ties {}", finding.distance, finding.ties);
    }
    Ok(())
}
