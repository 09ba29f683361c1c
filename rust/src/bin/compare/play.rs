//! A run on the library and on the second receiver and host, compared after each call, report and restart.

use crate::counts::Counts;
use crate::hosts::read_reply;
use crate::run::{hex, Change, Event, Run, Step};
use crate::runs::WIDEST;
use crate::tables;
use rivertosku::board::{Board, Number, Order, Parts, FRAME, TABLE};
use rivertosku::fault::Fault;
use rivertosku::position::{Position, Travel};
use rivertosku::same;
use rivertosku::second::Second;

/// The step at which the two disagree, and what differs.
pub struct Miss {
    pub step: usize,
    pub text: String,
}

/// The library's board and the second receiver, in the same state.
struct Pair<'c> {
    board: Board,
    second: Second,
    fault: Fault,
    counts: &'c mut Counts,
}

/// The buffer goes on behind the widest room, to see that nothing is written there.
const BUFFER: usize = WIDEST + 20;

impl Pair<'_> {
    /// One call of both; what differs, else how many bytes were taken and whether it was accepted.
    fn call(&mut self, piece: &[u8], stamp: u32, room: usize) -> Result<(usize, bool), String> {
        let (mut ours, mut theirs) = same::buffers::<BUFFER>(self.counts.calls);
        let before = *self.board.parts();

        let answer = self.board.receive(piece, stamp, &mut ours[..room]);
        let (number, taken, order) = (answer.number, answer.taken, answer.order);
        let a = (number as u8, taken, answer.reply.len(), order.map_or(0, Order::number), same::travel_bytes(travel(order)));
        let out = match self.fault {
            Fault::None => self.second.call(piece, stamp, &mut theirs[..room]),
            fault => self.second.broken_call(fault, piece, stamp, &mut theirs[..room]),
        };
        let b = (out.number, out.taken, out.written, out.order, out.travel);

        self.counts.call(number, taken, out.units);
        if a != b {
            return Err(format!("number, taken, written, order, travel: library {a:?}, second {b:?}"));
        }
        if ours != theirs {
            return Err(format!("buffer: library {}, second {}", hex(&ours[..room]), hex(&theirs[..room])));
        }
        if let Some(text) = same::difference(&self.board, &self.second) {
            return Err(text);
        }
        read_reply(&ours[..a.2], order, self.fault, self.counts)?;
        kept(&before, self.board.parts(), taken)?;
        Ok((taken, number == Number::Accepted))
    }

    /// The time reported to both, so long after the last byte; what differs.
    fn report_clock(&mut self, wait: u32) -> Result<(), String> {
        let mut expected = *self.board.parts();
        let now = expected.stamp.wrapping_add(wait);

        let number = self.board.report_clock(now);
        let a = number as u8;
        let b = match self.fault {
            Fault::None => self.second.report_clock(now),
            fault => self.second.broken_report_clock(fault, now),
        };

        let parts = self.board.parts();
        let dropped = parts.count != expected.count;
        self.counts.report(number, dropped);
        if a != b {
            return Err(format!("report at {now}, number: library {a}, second {b}"));
        }
        if let Some(text) = same::difference(&self.board, &self.second) {
            return Err(format!("report at {now}, {text}"));
        }
        // The library's record besides: the very same, but for the unfinished bytes if they are dropped.
        if dropped {
            (expected.held, expected.count) = ([0; FRAME], 0);
        }
        if *parts != expected {
            return Err(format!("report at {now}, the record: {parts:?}, not {expected:?}"));
        }
        Ok(())
    }

    /// The position reported to both; what differs.
    fn report_position(&mut self, position: Position) -> Result<(), String> {
        let mut expected = *self.board.parts();

        let number = self.board.report_position(position);
        let a = number as u8;
        let bytes = same::position_bytes(position);
        let b = match self.fault {
            Fault::None => self.second.report_position(bytes),
            fault => self.second.broken_report_position(fault, bytes),
        };

        self.counts.position_report(number);
        if a != b {
            return Err(format!("report of {position:?}, number: library {a}, second {b}"));
        }
        if let Some(text) = same::difference(&self.board, &self.second) {
            return Err(format!("report of {position:?}, {text}"));
        }
        // The library's record besides: the very same, but for the position if it is accepted.
        if number == Number::Accepted {
            expected.memory.position = position;
        }
        let parts = self.board.parts();
        if *parts != expected {
            return Err(format!("report of {position:?}, the record: {parts:?}, not {expected:?}"));
        }
        Ok(())
    }

    /// The table handed out by both into so much room, if it is; what differs.
    fn hand_out(&mut self, room: usize) -> Result<Option<Vec<u8>>, String> {
        let said = same::hand_out(&self.board, &self.second, room, self.fault, self.counts.calls)?;
        self.counts.hand_out(&said);
        Ok(said.ok())
    }

    /// Both start again with the table that they hand out, if they do; what differs.
    fn restart(&mut self) -> Result<(), String> {
        if let Some(table) = self.hand_out(TABLE)? {
            (self.board, self.second) = tables::take_back(&table, self.fault, self.counts)?;
        }
        Ok(())
    }

    fn event(&mut self, event: &Event) -> Result<(), String> {
        match *event {
            Event::Clock(wait) => self.report_clock(wait),
            Event::Position(position) => self.report_position(position),
            Event::HandOut(room) => self.hand_out(room).map(|_| ()),
            Event::Restart => self.restart(),
        }
    }

    /// A step's events and calls, by turns; what differs.
    fn offer(&mut self, step: &Step) -> Result<(), String> {
        let mut rest = &step.piece[..];
        loop {
            for event in &step.events {
                self.event(event)?;
            }
            let (taken, accepted) = self.call(rest, step.stamp, step.room)?;
            rest = &rest[taken..];
            if rest.is_empty() || taken == 0 || !accepted {
                return Ok(());
            }
        }
    }

    /// Puts both into this state.
    fn put(&mut self, parts: Parts) {
        self.board = Board::from_parts(parts);
        self.second = same::second_of(&parts);
    }

    /// A step in the state that its change makes; what differs.
    fn step(&mut self, step: &Step) -> Result<(), String> {
        let Some(change) = &step.change else { return self.offer(step) };
        let kept = (self.board.clone(), self.second.clone());
        let mut parts = *self.board.parts();
        change.apply(&mut parts);
        self.put(parts);
        self.offer(step)?;
        if !matches!(change, Change::Spare(_)) {
            (self.board, self.second) = kept;
        }
        Ok(())
    }
}

/// The travel of an order, zeros if it carries none.
fn travel(order: Option<Order>) -> Travel {
    match order {
        Some(Order::Move(travel) | Order::Movr(travel)) => travel,
        _ => Travel::default(),
    }
}

/// The library's record besides: the very same if nothing is taken, else zeros behind the unfinished bytes.
fn kept(before: &Parts, parts: &Parts, taken: usize) -> Result<(), String> {
    if taken == 0 && parts != before {
        return Err(format!("nothing is taken, the record changes: {before:?} to {parts:?}"));
    }
    if taken > 0 && parts.held[parts.count..].iter().any(|&byte| byte != 0) {
        return Err(format!("spare bytes: {:?}", parts.held));
    }
    Ok(())
}

pub fn play(run: &Run, fault: Fault, counts: &mut Counts) -> Result<(), Miss> {
    counts.runs += 1;
    let mut pair = Pair { board: Board::fresh(), second: Second::broken_fresh(fault), fault, counts };
    if let Some(text) = same::difference(&pair.board, &pair.second) {
        return Err(Miss { step: 0, text: format!("fresh boards: {text}") });
    }
    if let Some(parts) = run.start {
        pair.put(parts);
    }
    for (number, step) in run.steps.iter().enumerate() {
        pair.step(step).map_err(|text| Miss { step: number, text })?;
    }
    Ok(())
}
