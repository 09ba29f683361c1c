//! The library and the second receiver on the same random runs, compared after each call: number, taken, written, order, its travel, every
//! byte of the buffer, the state. Before some calls the time or the position is reported: number and state are compared. Or the table is
//! handed out, and at times taken back by a board that goes on: number, every byte of the buffer and the state are compared. The library's
//! host and the second one write the runs' requests and read every reply, and are compared too: length or refusal, every byte of the
//! buffer, the answer. The readers also get bytes that no board sends, and stored tables are taken back and looked at that no board hands
//! out.
//!
//!     compare [--seed N] [--units N] [--break NAME|all] [--show]
//!
//! Two million units if it is not said otherwise; 100,000 take a moment.

mod catch;
mod counts;
mod hosts;
mod play;
mod run;
mod runs;
mod shortest;
mod tables;

use counts::Counts;
use play::play;
use rivertosku::fault::Fault;
use rivertosku::generator::Random;
use run::Run;
use shortest::shortest;
use std::process::ExitCode;

/// What the two disagreed on.
enum Failed {
    Run(Box<Run>),
    /// A request, a slice or a table, in words.
    Alone(String),
}

impl From<String> for Failed {
    fn from(text: String) -> Failed {
        Failed::Alone(text)
    }
}

/// A random run, bytes for the readers alone, and a stored table.
fn round(random: &mut Random, fault: Fault, counts: &mut Counts) -> Result<(), Failed> {
    let run = runs::random_run(random, fault, counts)?;
    if play(&run, fault, counts).is_err() {
        return Err(Failed::Run(Box::new(run)));
    }
    hosts::read_alone(random, fault, counts)?;
    Ok(tables::stored(random, fault, counts)?)
}

/// Runs until a disagreement or until so many units are counted.
fn compare(seed: u64, units: usize, fault: Fault) -> (Counts, Result<(), Failed>) {
    let mut random = Random(seed);
    let mut counts = Counts::default();
    while counts.units < units && counts.runs < units {
        if let Err(failed) = round(&mut random, fault, &mut counts) {
            return (counts, Err(failed));
        }
    }
    (counts, Ok(()))
}

/// Shows a disagreement, a run as short as it gets.
fn show(failed: Failed, fault: Fault) {
    match failed {
        Failed::Run(run) => {
            let (run, miss) = shortest(*run, fault);
            run.show();
            println!("  {}", miss.text);
        }
        Failed::Alone(text) => println!("  {text}"),
    }
}

const UNITS: usize = 2_000_000;

struct Options {
    seed: u64,
    units: usize,
    broken: Option<String>,
    shown: bool,
}

fn options() -> Option<Options> {
    let mut options = Options { seed: 20_240_607, units: UNITS, broken: None, shown: false };
    let mut args = std::env::args().skip(1);
    while let Some(arg) = args.next() {
        match arg.as_str() {
            "--seed" => options.seed = args.next()?.parse().ok()?,
            "--units" => options.units = args.next()?.parse().ok()?,
            "--break" => options.broken = Some(args.next()?),
            "--show" => options.shown = true,
            _ => return None,
        }
    }
    Some(options)
}

fn main() -> ExitCode {
    let Some(Options { seed, units, broken, shown }) = options() else {
        eprintln!("usage: compare [--seed N] [--units N] [--break NAME|all] [--show]");
        return ExitCode::from(2);
    };
    if let Some(name) = broken {
        return catch::catch(&name, seed, units, shown);
    }
    let (counts, said) = compare(seed, units, Fault::None);
    counts.show(seed);
    match said {
        Err(failed) => {
            println!("the two disagree, at the shortest on:");
            show(failed, Fault::None);
            ExitCode::FAILURE
        }
        Ok(()) => ExitCode::SUCCESS,
    }
}
