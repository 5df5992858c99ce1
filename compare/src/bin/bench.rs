//! Compares every answer, then times every contender, and writes the page and the picture to the two paths given.
use compare::bench::agree::agree;
use compare::bench::closed::{self, ClosedRow};
use compare::bench::contenders::{Call, Contender, Version};
use compare::bench::inputs::{self, Input, MOST_LINE};
use compare::bench::machine::load;
use compare::bench::page::page;
use compare::bench::parts::{Parts, PartsRow};
use compare::bench::picture::picture;
use compare::bench::results::{geometric_mean, Mode, Results, Row, Second, BAR, MODES};
use compare::bench::timing::time;
use compare::bench::turns::Turns;
use compare::peers::{Answer, FINDING_WORDS};
use std::path::Path;
use std::process::ExitCode;
use std::{env, fs, slice};

/// A finding for each edge of the longest line.
const WORDS: usize = FINDING_WORDS * MOST_LINE;

fn agree_on_all(contenders: &[Contender], inputs: &mut [Input], words: &mut [u32]) -> Result<Vec<Answer>, String> {
    inputs.iter_mut().map(|input| agree(contenders, input, words)).collect()
}

/// Every input beside its twelve lines.
fn compare_turns(contenders: &[Contender], inputs: &[Input], words: &mut [u32]) -> Result<Vec<Turns>, String> {
    inputs.iter().map(|input| Turns::compared(contenders, input, words)).collect()
}

fn time_one(contenders: &[Contender], input: &Input, words: &mut [u32]) -> Vec<f64> {
    eprintln!("timing {}", input.name);
    time(contenders, slice::from_ref(input), words)
}

/// Rows that miss the bar in a mode are timed once more in it, and keep the second run's times.
fn time_again(
    contenders: &[Contender],
    lines: &[(&Input, &Turns)],
    rows: &mut [Row],
    words: &mut [u32],
) -> Vec<Second> {
    let mut seconds = Vec::new();
    for ((input, turns), row) in lines.iter().zip(rows) {
        for mode in MODES {
            let Some(first) = row.scan_ratio(mode).filter(|&ratio| ratio > BAR) else { continue };
            match mode {
                Mode::One => row.times = time_one(contenders, input, words),
                Mode::Twelve => row.in_turn = turns.timed(words),
            }
            let second = row.scan_ratio(mode).unwrap_or(first);
            seconds.push(Second { name: input.name.clone(), mode, first, second });
        }
    }
    seconds
}

fn measure() -> Result<Results, String> {
    let contenders = Contender::all();
    let mut inputs = inputs::all();
    let mut words = vec![0; WORDS];
    let answers = agree_on_all(&contenders, &mut inputs, &mut words)?;
    let turns = compare_turns(&contenders, &inputs, &mut words)?;
    let parts = Parts::all(&mut words)?;
    let closed_inputs = inputs::closed();
    let compared = contenders.len() * inputs.len()
        + turns.iter().map(Turns::answers).sum::<usize>()
        + parts.iter().map(Parts::answers).sum::<usize>()
        + closed::agree(&closed_inputs, &mut words)?;
    eprintln!("{compared} answers compared, all equal");
    let lines: Vec<(&Input, &Turns)> = inputs.iter().zip(&turns).collect();
    let timed = lines.iter().zip(answers).map(|((input, turns), answer)| {
        Row::new(input, answer, time_one(&contenders, input, &mut words), turns.timed(&mut words))
    });
    let mut rows: Vec<Row> = timed.collect();
    let seconds = time_again(&contenders, &lines, &mut rows, &mut words);
    let closed: Vec<ClosedRow> = closed_inputs.iter().map(|input| ClosedRow::timed(input, &mut words)).collect();
    let parts = parts.iter().map(|parts| PartsRow::timed(parts, &mut words)).collect();
    Ok(Results { contenders, rows, seconds, closed, parts, compared })
}

fn run(page_path: &str, picture_path: &str) -> Result<(), String> {
    let before = load();
    let results = measure()?;
    let name = Path::new(picture_path).file_name().map_or(picture_path.into(), |name| name.to_string_lossy());
    fs::write(page_path, page(&results, [&before, &load()], &name)).map_err(|why| format!("{page_path}: {why}"))?;
    fs::write(picture_path, picture(&results)).map_err(|why| format!("{picture_path}: {why}"))?;
    for (at, contender) in results.rivals() {
        let mean = geometric_mean(&results.ratios(at, |_| true));
        println!("{:40} {mean:9.2} times C's {}", contender.name(), contender.against().name());
    }
    for (at, name) in
        [(Contender::place_of(Version::C, Call::Scan), "C"), (Contender::place_of_limit(Call::Scan), "limit")]
    {
        let pair = [Contender::place_of(Version::Ours, Call::Scan), at];
        let [one, twelve] = MODES.map(|mode| results.mean_over(pair, &[mode]));
        let both = results.mean_over(pair, &MODES);
        println!("outlines scan over {name} scan: one line {one:.3}, twelve lines {twelve:.3}, both {both:.3}");
    }
    results.closed.iter().for_each(ClosedRow::print);
    Ok(())
}

fn main() -> ExitCode {
    let paths: Vec<String> = env::args().skip(1).collect();
    let [page_path, picture_path] = paths.as_slice() else {
        eprintln!("usage: bench BENCH.md bench.svg");
        return ExitCode::FAILURE;
    };
    match run(page_path, picture_path) {
        Ok(()) => ExitCode::SUCCESS,
        Err(why) => {
            eprintln!("bench: {why}");
            ExitCode::FAILURE
        }
    }
}
