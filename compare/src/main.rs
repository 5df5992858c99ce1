//! Compares the library, its report program and the stored output of the samples with the second program.

use compare::cases::Choice;
use compare::check::run::{run_all, Plan, Post, Worker};
use compare::check::{crash, trial};
use compare::rows::{self, Lines};
use std::path::Path;
use std::process::ExitCode;

const USAGE: &str =
    "usage: compare [--seed S] [--case N] [--long] [--try] [--samples FOLDER] (--calls-only | --program COMMAND..)
       compare --make-samples FOLDER
  --seed S         another seed than the fixed one
  --case N         only the case of this number, printed in full
  --long           20,000 long rings and lines, 2,000 closed ones, 2,000 scanned both ways, and nothing else
  --try            spoil copies of the answers and check that each is noticed
  --samples ..     compare the file stdout of this folder as well, line by line
  --calls-only     leave the report program out
  --program ..     the report program with its arguments, up to the next word of this list
  --make-samples   print what stdout of this folder must be";

const WORDS: [&str; 8] =
    ["--seed", "--case", "--long", "--try", "--samples", "--calls-only", "--program", "--make-samples"];

const SEED: u64 = 20_260_101;

#[derive(Default)]
struct Options {
    seed: Option<u64>,
    case: Option<u64>,
    long: bool,
    on_trial: bool,
    samples: Option<String>,
    make_samples: Option<String>,
    calls_only: bool,
    program: Option<Vec<String>>,
    /// Not among the words above: `--try` starts this program with it, to see it end at a guard.
    overstep: Option<String>,
}

fn options() -> Option<Options> {
    let mut options = Options::default();
    let mut words = std::env::args().skip(1).peekable();
    while let Some(word) = words.next() {
        match word.as_str() {
            "--seed" => options.seed = Some(words.next()?.parse().ok()?),
            "--case" => options.case = Some(words.next()?.parse().ok()?),
            "--long" => options.long = true,
            "--try" => options.on_trial = true,
            "--samples" => options.samples = Some(words.next()?),
            "--make-samples" => options.make_samples = Some(words.next()?),
            "--calls-only" => options.calls_only = true,
            "--overstep" => options.overstep = Some(words.next()?),
            "--program" => {
                let mut program = vec![words.next()?];
                while let Some(part) = words.next_if(|word| !WORDS.contains(&word.as_str())) {
                    program.push(part);
                }
                options.program = Some(program);
            }
            _ => return None,
        }
    }
    let chosen = options.calls_only != options.program.is_some();
    (chosen || options.overstep.is_some() || options.make_samples.is_some()).then_some(options)
}

fn finish(passed: u64, failed: u64, complete: bool) -> ExitCode {
    println!("{passed} passed, {failed} failed");
    if failed == 0 && complete {
        ExitCode::SUCCESS
    } else {
        ExitCode::FAILURE
    }
}

fn one(plan: &Plan, number: u64) -> ExitCode {
    let Some((place, index)) = compare::cases::locate(&plan.kinds, number) else {
        println!("there are {} cases", plan.intended());
        return finish(0, 1, false);
    };
    println!("{}: {}", plan.kinds[place].name, plan.kinds[place].case(plan.seed, index));
    let post = Post::default();
    let difference = Worker::new(plan, &post).check(number);
    println!("{}", difference.as_deref().unwrap_or("no difference"));
    finish(u64::from(difference.is_none()), u64::from(difference.is_some()), true)
}

/// Prints how many lines of the samples were compared and which differ; returns how many are the same and how many differ.
fn tell_samples(samples: &Lines) -> (u64, u64) {
    let differences = samples.differences();
    println!("lines of the samples' stored output: {}, differ {}", samples.compared(), differences.len());
    differences.iter().for_each(|difference| println!("DIFFERENCE {difference}"));
    ((samples.compared() - differences.len()) as u64, differences.len() as u64)
}

fn all(plan: &Plan, samples: Option<Lines>) -> ExitCode {
    let ledger = run_all(plan);
    ledger.print(&plan.kinds);
    let every_kind = plan.choice != Choice::Long;
    let missing = if every_kind { ledger.missing(plan.program.is_some()) } else { Vec::new() };
    if !missing.is_empty() {
        println!("no case has these: {}", missing.join(", "));
    }
    let (same, other) = samples.as_ref().map_or((0, 0), tell_samples);
    let (compared, differing) = (ledger.compared(), ledger.differing());
    println!("compared {compared} of {} intended", plan.intended());
    finish(compared - differing + same, differing + other, compared == plan.intended() && missing.is_empty())
}

fn main() -> ExitCode {
    let Some(options) = options() else {
        println!("{USAGE}\n0 passed, 1 failed");
        return ExitCode::FAILURE;
    };
    if let Some(which) = options.overstep {
        trial::overstep(&which);
        return finish(0, 1, false);
    }
    if let Some(folder) = options.make_samples {
        print!("{}", rows::made(Path::new(&folder)).expect("a folder with the samples' stdin"));
        return ExitCode::SUCCESS;
    }
    crash::watch();
    let lines = |folder| Lines::of(Path::new(&folder)).expect("a folder with the samples' stdin and stdout");
    let samples = options.samples.filter(|_| !options.long && options.case.is_none()).map(lines);
    let plan = Plan::new(options.seed.unwrap_or(SEED), options.program, options.long);
    println!("seed {}", plan.seed);
    if plan.program.is_none() {
        println!("the report program is left out");
    }
    match options.case {
        Some(number) => one(&plan, number),
        None if options.on_trial => {
            let (passed, failed) = trial::run_trial(&plan, samples);
            finish(passed as u64, failed as u64, true)
        }
        None => all(&plan, samples),
    }
}
