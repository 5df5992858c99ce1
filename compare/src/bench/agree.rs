//! Every answer is compared before anything is timed.
use super::contenders::{Call, Contender, Version};
use super::inputs::{Input, FIELD_LENGTH};
use crate::peers::{Answer, FINDING_WORDS};

/// A word that no finding has: it shows where a contender wrote.
const UNWRITTEN: u32 = u32::MAX;

/// The findings that the book of an input does not hide, computed without a report. It hides every finding that it names.
fn shown(findings: &[u32], book: &[u8]) -> Vec<u32> {
    let fields = book.chunks(FIELD_LENGTH);
    let starts: Vec<u32> = fields.map(|f| u32::from_be_bytes([f[9], f[10], f[11], f[12]])).collect();
    let kept = findings.chunks(FINDING_WORDS).filter(|finding| starts.binary_search(&finding[0]).is_err());
    kept.flatten().copied().collect()
}

/// Runs one contender. An error if its answer or the words after the call differ from what is wanted.
pub(super) fn compare(
    contender: &Contender,
    input: &Input,
    words: &mut [u32],
    wanted: &[u32],
    answer: Answer,
) -> Result<(), String> {
    words.fill(UNWRITTEN);
    let mut given = contender.run(input, words);
    if let Contender::Peer(_) = contender {
        given.looks = answer.looks; // a peer counts none
    }
    if given != answer {
        return Err(format!("{}: {} answers {given:?}, not {answer:?}", input.name, contender.name()));
    }
    let (put, kept) = words.split_at(wanted.len());
    if put != wanted || kept.iter().any(|&word| word != UNWRITTEN) {
        return Err(format!("{}: {} gives other findings", input.name, contender.name()));
    }
    Ok(())
}

/// Gives the input its book and compares all contenders on it: findings of each with those of the scan in C, looks of
/// scans and reports with its looks, looks of surveys with document 01's formula. Returns the answer of the scan in C.
pub fn agree(contenders: &[Contender], input: &mut Input, words: &mut [u32]) -> Result<Answer, String> {
    let scan = Contender::Rules(Version::C, Call::Scan).run(input, words);
    let findings = words[..FINDING_WORDS * scan.found].to_vec();
    input.silence(&findings);
    let left = shown(&findings, &input.book);
    let hidden = scan.found - left.len() / FINDING_WORDS;
    let (m, n) = (input.ring.len(), input.line.len());
    for contender in contenders {
        let (wanted, answer) = match contender {
            Contender::Rules(_, Call::Survey) | Contender::Limit(Call::Survey) => {
                (&findings, Answer { looks: 2 * m * n - m * m, ..scan })
            }
            Contender::Rules(_, Call::Hiding) => (&left, Answer { hidden, ..scan }),
            _ => (&findings, scan),
        };
        compare(contender, input, words, wanted, answer)?;
    }
    Ok(scan)
}
