//! A run of the comparison: pieces, reports, restarts and states by hand.

use rivertosku::board::{Parts, FRAME};
use rivertosku::position::Position;
use rivertosku::same;

/// A change of the state by hand before a step. All but `Spare` are taken back behind it.
#[derive(Clone, Debug)]
pub enum Change {
    Data(usize, Vec<u8>),
    Position(Position),
    Flags(usize),
    Held(Vec<u8>, usize),
    /// This byte in all places of held behind the unfinished bytes.
    Spare(u8),
}

/// What comes between calls.
#[derive(Clone, Debug)]
pub enum Event {
    /// A report of the time, as the wait since the last byte, whichever that is.
    Clock(u32),
    /// A report of where the drive stands.
    Position(Position),
    /// The table handed out into so much room.
    HandOut(usize),
    /// The table handed out and, if it is, taken back by a board that goes on.
    Restart,
}

/// A piece, offered until all of it is taken or it is refused.
#[derive(Clone)]
pub struct Step {
    pub change: Option<Change>,
    /// Before each of its calls.
    pub events: Vec<Event>,
    pub piece: Vec<u8>,
    pub stamp: u32,
    pub room: usize,
}

#[derive(Clone)]
pub struct Run {
    /// A sound state to begin with, else a fresh board.
    pub start: Option<Parts>,
    pub steps: Vec<Step>,
}

impl Change {
    pub fn apply(&self, parts: &mut Parts) {
        match self {
            Change::Data(block, data) => same::put_data(parts, *block, data),
            Change::Position(position) => parts.memory.position = *position,
            Change::Flags(flags) => parts.memory.notes.flags = *flags,
            Change::Held(bytes, count) => {
                parts.held = [0; FRAME];
                parts.held[..bytes.len()].copy_from_slice(bytes);
                parts.count = *count;
            }
            Change::Spare(byte) => {
                let from = parts.count.min(FRAME);
                parts.held[from..].fill(*byte);
            }
        }
    }
}

pub fn hex(bytes: &[u8]) -> String {
    match bytes {
        [] => "-".to_string(),
        _ => bytes.iter().map(|b| format!("{b:02x}")).collect(),
    }
}

impl Run {
    pub fn show(&self) {
        match &self.start {
            Some(parts) => println!("  begins with {parts:?}"),
            None => println!("  begins with a fresh board"),
        }
        for step in &self.steps {
            if let Some(change) = &step.change {
                println!("  state by hand: {change:?}");
            }
            if !step.events.is_empty() {
                println!("  before each call, the time in ms after the last byte: {:?}", step.events);
            }
            println!("  stamp {} room {} piece of {} {}", step.stamp, step.room, step.piece.len(), hex(&step.piece));
        }
    }
}
