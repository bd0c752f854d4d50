//! A plain Rust program of the same conduct as `ca answer [--records FILE]`, for comparison alone: nothing of it is proved, and
//! nothing of the repository is built from it. It answers all commands of a client, in all types, with conversions, alarms, time
//! stamps, masks, event queues and rules of access, and it ends by the same statuses. `bench/conduct` compares its bytes with
//! those that the repository's cases want, and with those of `ca answer`; `bench/answer` compares their speed.
//!
//! It differs in this alone: out of memory the system ends it, where `ca` ends by itself with `refused: 1 OutOfMemory`.

mod channels;
mod circuit;
mod records;
mod updates;
mod values;
mod wire;

use circuit::{Circuit, OUTPUT_LIMIT};
use records::{Records, STANDING};
use std::fs::File;
use std::io::{self, Read, Write};
use std::os::fd::AsFd;
use std::process::ExitCode;
use wire::{One, Refusal, read_one};

const READ_SIZE: usize = 65_536;
/// So many reads and writes are made in all.
const TURNS: u32 = 1_048_576;

/// A circuit's two streams, with the turns that were made.
struct Streams {
    input: File,
    output: File,
    turns: u32,
}

impl Streams {
    /// Standard input and output, with no buffers of the library's between.
    fn new() -> io::Result<Streams> {
        let input = File::from(io::stdin().as_fd().try_clone_to_owned()?);
        let output = File::from(io::stdout().as_fd().try_clone_to_owned()?);
        Ok(Streams { input, output, turns: 0 })
    }

    fn turn(&mut self) -> Result<(), Refusal> {
        if self.turns == TURNS {
            return Err(Refusal::Device);
        }
        self.turns += 1;
        Ok(())
    }

    fn read(&mut self, room: &mut [u8]) -> Result<usize, Refusal> {
        self.turn()?;
        self.input.read(room).map_err(|_| Refusal::Device)
    }

    /// Writes all that waits, if that is anything.
    fn flush(&mut self, out: &mut Vec<u8>) -> Result<(), Refusal> {
        if out.is_empty() {
            return Ok(());
        }
        self.turn()?;
        self.output.write_all(out).map_err(|_| Refusal::Device)?;
        out.clear();
        Ok(())
    }
}

/// Serves a circuit to the end of input. All that came is answered before more is read.
fn serve(circuit: &mut Circuit, streams: &mut Streams) -> Result<(), Refusal> {
    let mut out = Vec::with_capacity(OUTPUT_LIMIT + READ_SIZE);
    // The first `end` of these bytes came and were not handled.
    let (mut held, mut end) = (Vec::new(), 0);
    loop {
        if held.len() < end + READ_SIZE {
            held.resize(end + READ_SIZE, 0);
        }
        let size = streams.read(&mut held[end..end + READ_SIZE])?;
        if size == 0 {
            return Ok(());
        }
        end += size;
        let done = drain(circuit, &held[..end], &mut out, streams)?;
        if done > 0 {
            held.copy_within(done..end, 0);
            end -= done;
        }
    }
}

/// Handles the complete messages of these bytes, and says how many bytes these are.
fn drain(
    circuit: &mut Circuit,
    bytes: &[u8],
    out: &mut Vec<u8>,
    streams: &mut Streams,
) -> Result<usize, Refusal> {
    let mut done = 0;
    loop {
        match read_one(&bytes[done..]) {
            One::Whole(message, size) => {
                circuit.handle(&message, out);
                done += size;
                if out.len() >= OUTPUT_LIMIT {
                    streams.flush(out)?;
                }
            }
            One::More => {
                streams.flush(out)?;
                return Ok(done);
            }
            One::Refused(refusal) => {
                streams.flush(out)?;
                return Err(refusal);
            }
        }
    }
}

/// The file of records that the words name, if they name one. None if they are not understood.
fn read_words(words: &[String]) -> Option<Option<&str>> {
    match words {
        [first] if first == "answer" => Some(None),
        [first, word] if first == "answer" => Some(Some(word.strip_prefix("--records=")?)),
        [first, option, file] if first == "answer" && option == "--records" => {
            (!file.starts_with('-')).then_some(Some(file))
        }
        _ => None,
    }
}

fn run(file: Option<&str>) -> Result<(), Refusal> {
    let text = match file {
        None => STANDING.to_vec(),
        Some(file) => std::fs::read(file).map_err(|_| Refusal::Device)?,
    };
    let mut circuit = Circuit::new(Records::read(&text)?);
    let mut streams = Streams::new().map_err(|_| Refusal::Device)?;
    serve(&mut circuit, &mut streams)
}

fn main() -> ExitCode {
    let words = std::env::args_os().skip(1).map(|word| word.into_string().ok());
    let Some(words) = words.collect::<Option<Vec<String>>>() else {
        return not_understood();
    };
    let Some(file) = read_words(&words) else {
        return not_understood();
    };
    match run(file) {
        Ok(()) => ExitCode::SUCCESS,
        Err(refusal) => {
            let _ = writeln!(io::stderr(), "refused: {} {refusal:?}", refusal as u8);
            ExitCode::from(1)
        }
    }
}

fn not_understood() -> ExitCode {
    let _ = writeln!(io::stderr(), "not understood");
    ExitCode::from(2)
}
