//! The second receiver's table for others: handed out to a flash writer, taken back, and its blocks looked at.
//! It can be broken on purpose (`Fault`), to see that a comparison notices.

use crate::fault::Fault;
use crate::second::Second;
use crate::table::{place, row, BLOCKS, TABLE};

impl Second {
    /// The table at the front of `out`; the answer's number.
    pub fn hand_out(&self, fault: Fault, out: &mut [u8]) -> u8 {
        let short = out.len() < if fault == Fault::HandOutRoomOneOff { TABLE + 1 } else { TABLE };
        let unsound = match fault {
            Fault::HandOutUnjudged => false,
            Fault::HandOutJudgesTable => self.unsound_table(Fault::None).is_some(),
            _ => self.unsound(Fault::None).is_some(),
        };
        let number = match (short, unsound) {
            (true, true) if fault == Fault::HandOutSoundnessFirst => 3,
            (true, _) => 2,
            (false, true) => 3,
            (false, false) => 0,
        };
        let written = match fault {
            Fault::HandOutWritesRefused if number == 3 => TABLE,
            Fault::HandOutWritesWhatFits => TABLE,
            Fault::HandOutOneShort if number == 0 => TABLE - 1,
            _ if number == 0 => TABLE,
            _ => 0,
        };
        let written = written.min(out.len());
        out[..written].copy_from_slice(&self.table[..written]);
        if fault == Fault::HandOutWritesPast && out.len() > TABLE {
            out[TABLE] = 0;
        }
        number
    }

    /// A receiver with a stored table, or a fresh one; the answer's number.
    pub fn take_back(fault: Fault, bytes: &[u8]) -> (u8, Second) {
        let mut back = Second::fresh();
        let kept = match fault {
            Fault::TakeBackOneShort => TABLE - 1,
            _ => TABLE,
        };
        let front = bytes.len().min(kept);
        back.table[..front].copy_from_slice(&bytes[..front]);
        if fault == Fault::TakeBackCleansReserved {
            back.clean();
        }
        if fault == Fault::TakeBackFlags {
            back.flags = 1;
        }
        let number = back.taken_back(fault, bytes.len());
        if number != 0 && !(number == 3 && fault == Fault::TakeBackKeepsRefused) {
            back = Second::fresh();
        }
        (number, back)
    }

    /// The number for a table of so many bytes, the front of which stands in the table.
    fn taken_back(&self, fault: Fault, length: usize) -> u8 {
        let another_length = match fault {
            Fault::TakeBackLonger => length < TABLE,
            Fault::TakeBackShorter => length > TABLE,
            _ => length != TABLE,
        };
        let unsound = fault != Fault::TakeBackUnjudged && self.unsound_table(Fault::None).is_some();
        match (another_length, unsound) {
            (true, true) if fault == Fault::TakeBackSoundnessFirst => 3,
            (true, _) => 1,
            (false, true) => 3,
            (false, false) => 0,
        }
    }

    /// Makes reserved bytes zero.
    fn clean(&mut self) {
        for block in BLOCKS {
            self.table[place(block)][row(block).used()..].fill(0);
        }
    }
}

/// A block's data section in a table, with zeros behind the end of one that is shorter.
pub fn view(fault: Fault, table: &[u8], block: usize) -> Vec<u8> {
    let places = fault.place(block, Fault::ViewElsewhere, Fault::ViewOneLater);
    let whole = table.len() >= places.end;
    let fresh = Second::fresh().table;
    let behind = |at| match fault {
        Fault::ViewFreshBehind => fresh[at],
        _ => 0,
    };
    let mut section: Vec<u8> = match fault {
        Fault::ViewWholeOrZeros if !whole => vec![0; row(block).length()],
        _ => places.map(|at| table.get(at).copied().unwrap_or_else(|| behind(at))).collect(),
    };
    if block == 11 {
        fault.misplace(Fault::ViewSpeedsExchanged, Fault::ViewPartsBehindTimeouts, &mut section);
    }
    section
}

#[cfg(test)]
mod tests {
    use super::*;

    /// A second receiver whose table, stamp, flags and position are not fresh.
    fn used() -> Second {
        let mut second = Second { flags: 7, stamp: 9, position: [1, 0, 0, 0, 1, 0, 1, 0, 0, 0, 0, 0, 0, 0], ..Second::fresh() };
        // The first field of each, but joy's high end.
        BLOCKS.iter().for_each(|&block| second.table[place(block)][if block == 12 { 4 } else { 0 }] = 2);
        second
    }

    #[test]
    fn handed_out_and_taken_back() {
        let second = used();
        let mut out = [0xAA; TABLE + 1];
        assert_eq!((second.hand_out(Fault::None, &mut out[..TABLE - 1]), out), (2, [0xAA; TABLE + 1]));
        assert_eq!(second.hand_out(Fault::None, &mut out), 0);
        assert_eq!((&out[..TABLE], out[TABLE]), (&second.table[..], 0xAA));
        let back = Second { table: second.table, ..Second::fresh() };
        assert_eq!(Second::take_back(Fault::None, &out[..TABLE]), (0, back));
        for other in [&out[..], &out[..TABLE - 1], &[]] {
            assert_eq!(Second::take_back(Fault::None, other), (1, Second::fresh()));
        }
        // pwr's HoldCurrent, mov's first reserved byte, pid's last; ctl's rule, the last byte of the table.
        for (at, byte) in [(52, 101), (14, 1), (173, 0x80), (174, 0), (276, 0x80)] {
            let mut unsound = second.clone();
            unsound.table[at] = byte;
            let mut out = [0xAA; TABLE];
            assert_eq!((unsound.hand_out(Fault::None, &mut out), out), (3, [0xAA; TABLE]));
            assert_eq!(unsound.hand_out(Fault::None, &mut out[1..]), 2);
            assert_eq!(Second::take_back(Fault::None, &unsound.table), (3, Second::fresh()));
        }
        // The rest of a state may be unsound too.
        let unsound = Second { flags: 8, ..second };
        assert_eq!(unsound.hand_out(Fault::None, &mut [0; TABLE]), 3);
    }

    /// Each block in a table of the low bytes of all places, and in one of the high bytes: together they tell a byte's place.
    #[test]
    fn views() {
        for byte in [|at: usize| at as u8, |at: usize| (at >> 8) as u8] {
            let table: Vec<u8> = (0..TABLE).map(byte).collect();
            for block in BLOCKS {
                let section: Vec<u8> = place(block).map(byte).collect();
                assert_eq!(view(Fault::None, &table, block), section);
                let half = place(block).start + 5;
                assert_eq!(view(Fault::None, &table[..half], block), [&section[..5], &vec![0; section.len() - 5]].concat());
                assert_eq!(view(Fault::None, &[], block), vec![0; section.len()]);
            }
        }
    }
}
