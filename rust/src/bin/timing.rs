//! Both receivers over ten million bytes in the same pieces, rounds by turns: for each length of a piece and each reply room the median
//! times, and the median of the rounds' ratios, which a machine that is busy now and then disturbs least.
//!
//!     timing [ROUNDS]

use rivertosku::board::{Board, Number, FRAME, PIECE, ROOM};
use rivertosku::generator::{self, any_block, Random, BENCH_ROOM};
use rivertosku::same;
use rivertosku::second::Second;
use std::process::ExitCode;
use std::time::{Duration, Instant};

const BYTES: usize = 10_000_000;
/// All six lines take about a minute.
const ROUNDS: usize = 25;

/// Frames of the blocks, sets and gets, and orders; damaged ones, and zeros.
fn trace() -> Vec<u8> {
    let mut random = Random(1);
    let mut all = Vec::with_capacity(BYTES + FRAME);
    while all.len() < BYTES {
        match random.below(100) {
            0..=39 => all.extend(generator::good_set(&mut random, any_block)),
            40..=64 => all.extend(generator::get(&mut random)),
            65..=76 => all.extend(generator::order(&mut random)),
            77..=82 => all.extend(generator::damaged_set(&mut random, any_block)),
            83..=87 => all.extend(generator::bad_set(&mut random, any_block)),
            88..=91 => all.extend(generator::unknown(&mut random, generator::name)),
            _ => all.push(0),
        }
    }
    all.truncate(BYTES);
    all
}

/// How the trace is offered.
struct Offer<'t> {
    trace: &'t [u8],
    piece: usize,
    room: usize,
}

impl<'t> Offer<'t> {
    /// The pieces and their stamps, 20 ms apart.
    fn pieces(&self) -> impl Iterator<Item = (&'t [u8], u32)> {
        self.trace.chunks(self.piece).zip((0..).step_by(20))
    }
}

/// What a round over the trace gave.
#[derive(PartialEq)]
struct Said {
    replies: Vec<u8>,
    orders: [usize; 10],
    calls: usize,
}

impl Said {
    /// With its pages touched, so that no round pays for them.
    fn new() -> Said {
        Said { replies: vec![1; 2 * BYTES], orders: [0; 10], calls: 0 }
    }
}

fn library(offer: &Offer, said: &mut Said) -> Board {
    let mut board = Board::fresh();
    let mut reply = [0; BENCH_ROOM];
    for (piece, stamp) in offer.pieces() {
        let mut rest = piece;
        while !rest.is_empty() {
            let call = board.receive(rest, stamp, &mut reply[..offer.room]);
            assert!(call.number == Number::Accepted);
            said.replies.extend_from_slice(call.reply);
            said.orders[call.order.map_or(0, |order| order.number() as usize)] += 1;
            said.calls += 1;
            rest = call.rest;
        }
    }
    board
}

fn second(offer: &Offer, said: &mut Said) -> Second {
    let mut second = Second::fresh();
    let mut reply = [0; BENCH_ROOM];
    for (piece, stamp) in offer.pieces() {
        let mut rest = piece;
        while !rest.is_empty() {
            let out = second.call(rest, stamp, &mut reply[..offer.room]);
            assert!(out.number == 0);
            said.replies.extend_from_slice(&reply[..out.written]);
            said.orders[out.order as usize] += 1;
            said.calls += 1;
            rest = &rest[out.taken..];
        }
    }
    second
}

fn timed<T>(said: &mut Said, round: impl FnOnce(&mut Said) -> T) -> (Duration, T) {
    said.replies.clear();
    said.orders = [0; 10];
    said.calls = 0;
    let start = Instant::now();
    let end = round(said);
    (start.elapsed(), end)
}

/// A round of both, the library first if the round is even: their milliseconds, or in what they differ.
fn round(number: usize, offer: &Offer, a: &mut Said, b: &mut Said) -> Result<(f64, f64), String> {
    let (x, y);
    if number % 2 == 0 {
        x = timed(a, |said| library(offer, said));
        y = timed(b, |said| second(offer, said));
    } else {
        y = timed(b, |said| second(offer, said));
        x = timed(a, |said| library(offer, said));
    }
    if a != b {
        return Err("the replies or orders differ".to_string());
    }
    match same::difference(&x.1, &y.1) {
        Some(text) => Err(format!("the end states differ: {text}")),
        None => Ok((x.0.as_secs_f64() * 1000.0, y.0.as_secs_f64() * 1000.0)),
    }
}

fn median(values: impl Iterator<Item = f64>) -> f64 {
    let mut values: Vec<f64> = values.collect();
    values.sort_by(f64::total_cmp);
    values[values.len() / 2]
}

fn hash(bytes: &[u8]) -> u64 {
    bytes.iter().fold(0xCBF2_9CE4_8422_2325, |h, &b| (h ^ b as u64).wrapping_mul(0x100_0000_01B3))
}

/// All rounds of one line: what it says, or in what the two differ.
fn measure(offer: &Offer, rounds: usize, a: &mut Said, b: &mut Said) -> Result<String, String> {
    let times = (0..rounds).map(|number| round(number, offer, a, b)).collect::<Result<Vec<_>, _>>()?;
    Ok(format!(
        "library {:.1} ms, second {:.1} ms, ratio {:.2} ({BYTES} bytes, {} calls, {} orders, {} reply bytes, hash {:016x})",
        median(times.iter().map(|time| time.0)),
        median(times.iter().map(|time| time.1)),
        median(times.iter().map(|time| time.0 / time.1)),
        a.calls,
        a.orders[1..].iter().sum::<usize>(),
        a.replies.len(),
        hash(&a.replies)
    ))
}

/// The number of rounds, at least one; `None` if the arguments are no such number.
fn rounds() -> Option<usize> {
    let mut args = std::env::args().skip(1);
    let rounds = match args.next() {
        Some(arg) => arg.parse().ok()?,
        None => ROUNDS,
    };
    (rounds > 0 && args.next().is_none()).then_some(rounds)
}

fn main() -> ExitCode {
    let Some(rounds) = rounds() else {
        eprintln!("usage: timing [ROUNDS], at least one");
        return ExitCode::from(2);
    };
    let trace = trace();
    let (mut a, mut b) = (Said::new(), Said::new());
    for piece in [1, 16, PIECE] {
        for room in [ROOM, BENCH_ROOM] {
            match measure(&Offer { trace: &trace, piece, room }, rounds, &mut a, &mut b) {
                Ok(text) => println!("piece {piece}, room {room}: {text}"),
                Err(text) => {
                    println!("piece {piece}, room {room}: {text}");
                    return ExitCode::FAILURE;
                }
            }
        }
    }
    ExitCode::SUCCESS
}
