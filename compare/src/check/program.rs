//! One run of the report program compared with the second program.

use crate::cases::input::{Input, Manner};
use crate::second::program::output;
use std::fs::File;
use std::io::{Read, Write};
use std::process::{Child, Command, Stdio};
use std::sync::Mutex;
use std::thread::sleep;
use std::time::Duration;

/// The report program's path with its arguments.
pub type Program = Vec<String>;

/// The run under way, so that the watch can end a program that hangs.
pub type Slot = Mutex<Option<Child>>;

/// Long enough for a waiting reader to take what was written so far.
const BETWEEN_PIECES: Duration = Duration::from_micros(400);

fn command(program: &Program, manner: &Manner) -> Command {
    let mut command = Command::new(&program[0]);
    command.args(&program[1..]);
    if *manner == Manner::Closed {
        // The standard library cannot start a program with descriptor 0 closed; a shell can.
        command = Command::new("sh");
        command.args(["-c", "exec \"$@\" <&-", "sh"]).args(program);
    }
    command.stdin(match manner {
        Manner::Whole | Manner::Pieces(_) => Stdio::piped(),
        Manner::Closed | Manner::Nothing => Stdio::null(),
        Manner::Folder => File::open("/").expect("the root folder can be opened").into(),
    });
    command.stdout(Stdio::piped()).stderr(Stdio::null());
    command
}

/// A program may stop reading before the end, so the error of a broken pipe is ignored.
fn feed(mut pipe: impl Write, input: &Input) {
    let Manner::Pieces(cuts) = &input.manner else {
        let _ = pipe.write_all(&input.bytes);
        return;
    };
    let mut from = 0;
    for &cut in cuts.iter().filter(|&&cut| cut < input.bytes.len()) {
        let _ = pipe.write_all(&input.bytes[from..cut]);
        from = cut;
        sleep(BETWEEN_PIECES);
    }
    let _ = pipe.write_all(&input.bytes[from..]);
}

/// The program's whole output; an error if it could not be run or did not end by itself.
pub fn run(program: &Program, input: &Input, slot: &Slot) -> Result<Vec<u8>, String> {
    let mut child = command(program, &input.manner).spawn().map_err(|error| error.to_string())?;
    let (stdin, stdout) = (child.stdin.take(), child.stdout.take());
    *slot.lock().unwrap() = Some(child);
    if let Some(pipe) = stdin {
        feed(pipe, input);
    }
    let mut text = Vec::new();
    stdout.expect("output is piped").read_to_end(&mut text).map_err(|error| error.to_string())?;
    let child = slot.lock().unwrap().take();
    let status = child.expect("the run under way").wait().map_err(|error| error.to_string())?;
    // Document 01 does not mention the exit status, so only an end by a signal is an error.
    status.code().map(|_| text).ok_or(format!("the program ended by {status}"))
}

pub fn expected(input: &Input) -> Vec<u8> {
    output(&input.bytes).into_bytes()
}

fn shown(text: &[u8]) -> String {
    let end = text.len().min(300);
    format!("{:?} ({} bytes)", String::from_utf8_lossy(&text[..end]), text.len())
}

pub fn difference(given: &Result<Vec<u8>, String>, expected: &[u8]) -> Option<String> {
    match given {
        Err(error) => Some(error.clone()),
        Ok(text) if text != expected => Some(format!("output {}, expected {}", shown(text), shown(expected))),
        Ok(_) => None,
    }
}
