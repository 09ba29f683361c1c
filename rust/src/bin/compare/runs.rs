//! Random runs.

use crate::counts::Counts;
use crate::hosts::requested;
use crate::run::{Change, Event, Run, Step};
use rivertosku::board::{Board, Notes, Parts, FRAME, PIECE, ROOM, TABLE};
use rivertosku::fault::Fault;
use rivertosku::generator::{self, any_name, any_set, outside_set, Random, BENCH_ROOM};
use rivertosku::position::{Count, Microsteps, Position, Steps};

/// The widest room of a call.
pub const WIDEST: usize = 300;

/// A run's bytes: units of every kind, whole or in part. Those that no host writes, as sets with reserved bytes and the commands that are
/// outside it, are made without one.
fn bytes(random: &mut Random, fault: Fault, counts: &mut Counts) -> Result<Vec<Vec<u8>>, String> {
    let units = 1 + random.below(12);
    let mut all = vec![];
    for _ in 0..units {
        let mut unit = match random.below(130) {
            0..=7 => vec![0; 1 + random.below(3)],
            8..=48 => requested(random, fault, counts)?,
            49..=53 => generator::good_set(random, any_set),
            54..=61 => generator::zero_set(random, any_set),
            62..=74 => generator::bad_set(random, any_set),
            75..=85 => generator::damaged_set(random, any_set),
            86..=101 => generator::good_set(random, outside_set),
            102..=115 => generator::outside_get(random),
            _ => generator::unknown(random, any_name),
        };
        if random.percent(3) {
            unit.truncate(1 + random.below(unit.len()));
        }
        if random.percent(1) {
            unit.insert(random.below(unit.len()), random.word() as u8);
        }
        all.push(unit);
    }
    Ok(all)
}

fn cut(random: &mut Random, units: Vec<Vec<u8>>) -> Vec<Vec<u8>> {
    let style = random.below(5);
    if style == 0 {
        return units;
    }
    let all = units.concat();
    let mut pieces = vec![];
    let mut rest = &all[..];
    while !rest.is_empty() {
        let n = match style {
            1 => 1 + random.below(4),
            2 => 1 + random.below(60),
            3 => random.pick(&[PIECE - 1, PIECE, PIECE]),
            _ => 1 + random.below(PIECE),
        };
        let (piece, more) = rest.split_at(n.min(rest.len()));
        pieces.push(piece.to_vec());
        rest = more;
    }
    pieces
}

fn later(random: &mut Random, stamp: u32, calm: bool) -> u32 {
    let chance = if calm { 70 } else { 100 };
    stamp.wrapping_add(match random.below(chance) {
        0..=44 => random.below(12) as u32,
        45..=56 => 399,
        57..=70 => 400,
        71..=82 => 401,
        83..=86 => random.below(1000) as u32,
        87..=90 => random.word() as u32,
        // Back: by little a long wait, by nearly a round a short one.
        91..=93 => 0u32.wrapping_sub(random.below(500) as u32),
        94 => 0x8000_0000,
        // To the counter's end, so that the next wait crosses it.
        _ => (u32::MAX - random.below(420) as u32).wrapping_sub(stamp),
    })
}

/// A position with such microsteps, its other numbers at their extremes or anywhere.
fn position(random: &mut Random, microsteps: i16) -> Position {
    let any = random.word();
    let steps = random.pick(&[i32::MIN, -1, 0, i32::MAX, any as i32]);
    let count = random.pick(&[i64::MIN, -1, 0, i64::MAX, any as i64]);
    Position { steps: Steps(steps), microsteps: Microsteps(microsteps), count: Count(count) }
}

/// Microsteps in their range, often at its edges.
fn inside(random: &mut Random) -> i16 {
    let any = random.within(-255, 255) as i16;
    random.pick(&[-255, 255, any, any])
}

/// Microsteps at the edges of their range, on both sides, or anywhere.
fn around(random: &mut Random) -> i16 {
    let any = random.word() as i16;
    random.pick(&[-256, -255, 255, 256, i16::MIN, i16::MAX, any])
}

fn event(random: &mut Random) -> Event {
    match random.below(20) {
        0..=7 => Event::Clock(later(random, 0, false)),
        8..=15 => {
            let microsteps = if random.percent(60) { inside(random) } else { around(random) };
            Event::Position(position(random, microsteps))
        }
        16..=18 => {
            let any = random.below(2 * TABLE);
            Event::HandOut(random.pick(&[0, TABLE - 1, TABLE, TABLE, TABLE + 1, any]))
        }
        _ => Event::Restart,
    }
}

/// A few events in a row, if any.
fn events(random: &mut Random, chance: usize) -> Vec<Event> {
    let some = if random.percent(chance) { 1 + random.below(3) } else { 0 };
    (0..some).map(|_| event(random)).collect()
}

/// Room enough for a call.
fn room(random: &mut Random) -> usize {
    match random.below(10) {
        0..=2 => ROOM,
        3 => ROOM + 1 + random.below(8),
        4 => BENCH_ROOM,
        5 => WIDEST,
        _ => ROOM + random.below(WIDEST + 1 - ROOM),
    }
}

/// The beginning of a set, its name at least.
fn beginning(random: &mut Random) -> Vec<u8> {
    let mut frame = generator::good_set(random, any_set);
    frame.truncate(4 + random.below(frame.len() - 4));
    frame
}

/// A state by hand: a rule of soundness broken, or just kept.
fn change(random: &mut Random) -> Change {
    match random.below(18) {
        0..=3 => {
            let block = generator::any_block(random);
            Change::Data(block, generator::kept(random, block, 1))
        }
        4 | 5 => {
            let block = generator::any_block(random);
            Change::Data(block, generator::unclean(random, block))
        }
        6 => Change::Flags(random.pick(&[7, 8, 9, 128, 255, 256, usize::MAX])),
        7 => Change::Held(vec![0], 1),
        8 => Change::Held(vec![0, random.word() as u8, b's'], 2 + random.below(2)),
        9 => Change::Held(generator::unknown(random, any_name), 4),
        10 => Change::Held([any_name(random), vec![0; 3]].concat(), 4 + random.below(4)),
        11 | 12 => {
            // A set's frame, less a byte, whole, or with bytes behind it.
            let frame = generator::good_set(random, any_set);
            let n = (frame.len() + random.below(3) - 1).min(FRAME);
            let mut held = [frame, vec![1]].concat();
            held.truncate(n);
            Change::Held(held, n)
        }
        13 => {
            Change::Held(beginning(random), random.pick(&[FRAME, FRAME + 1, FRAME + 2, 255, 256, 260, 1 << 32, (1 << 32) + 4, usize::MAX]))
        }
        14 | 15 => {
            let microsteps = around(random);
            Change::Position(position(random, microsteps))
        }
        _ => Change::Spare(random.pick(&[1, 0x73, 0xFF])),
    }
}

/// A sound state, and the bytes that would finish its unit.
fn sound(random: &mut Random) -> (Parts, Vec<u8>) {
    let mut parts = *Board::fresh().parts();
    parts.memory.settings.bytes.copy_from_slice(&generator::sound_table(random));
    parts.memory.notes = Notes {
        flags: random.below(8),
        block: random.pick(&[0, 1, 7, 10, 12, 13, 256, usize::MAX]),
        field: random.pick(&[0, 1, 33, 34, 98, 99, 100, 256, usize::MAX]),
    };
    let microsteps = inside(random);
    parts.memory.position = position(random, microsteps);
    parts.stamp = random.word() as u32;
    let unit = match random.below(3) {
        0 => vec![],
        1 => any_name(random),
        _ => generator::good_set(random, any_set),
    };
    let (held, rest) = unit.split_at(random.below(unit.len().max(1)));
    Change::Held(held.to_vec(), held.len()).apply(&mut parts);
    if random.percent(30) {
        Change::Spare(0x73).apply(&mut parts);
    }
    (parts, rest.to_vec())
}

/// Calls aside, which take nothing.
fn aside(random: &mut Random, piece: &[u8], stamp: u32) -> Step {
    let mut aside =
        Step { change: None, events: events(random, 20), piece: piece.to_vec(), stamp: later(random, stamp, false), room: room(random) };
    match random.below(6) {
        0 => aside.piece.clear(),
        1 => aside.room = if random.percent(50) { ROOM - 1 } else { random.below(ROOM) },
        2 => aside.piece.resize(PIECE + 1 + random.below(10), b's'),
        3 => {
            aside.room = ROOM - 1;
            aside.piece.resize(PIECE + 1, 0);
        }
        4 => aside.change = Some(change(random)),
        _ => {
            aside.change = Some(change(random));
            aside.room = random.pick(&[ROOM - 1, ROOM]);
        }
    }
    if let Some(Change::Spare(_)) = aside.change {
        // Spare bytes stay: nothing is to be lost by the call.
        aside.piece.clear();
    }
    aside
}

pub fn random_run(random: &mut Random, fault: Fault, counts: &mut Counts) -> Result<Run, String> {
    let mut all = bytes(random, fault, counts)?;
    let mut start = None;
    if random.percent(30) {
        let (parts, rest) = sound(random);
        if random.percent(70) {
            all.insert(0, rest);
        }
        start = Some(parts);
    }
    // A calm run has no wait over 400.
    let calm = random.percent(60);
    let mut stamp = match (start, random.below(3)) {
        (Some(parts), _) => later(random, parts.stamp, calm),
        (_, 0) => 0,
        (_, 1) => u32::MAX - random.below(1000) as u32,
        _ => random.word() as u32,
    };
    let mut steps = vec![];
    for piece in cut(random, all) {
        if random.percent(12) {
            steps.push(aside(random, &piece, stamp));
        }
        // Long pieces take several calls: events are to come between these too.
        let chance = 1 + piece.len() / 8;
        steps.push(Step { change: None, events: events(random, chance), piece, stamp, room: room(random) });
        stamp = later(random, stamp, calm);
    }
    Ok(Run { start, steps })
}
