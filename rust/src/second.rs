//! A second receiver, written from sheets 01 and 02, with no code or table of the library. It goes byte by byte and keeps the settings as
//! one table, each block as the data section that a get sends, and the position as gpos sends it.
//! It can be broken on purpose (`Fault`), to see that a comparison notices.

use crate::fault::Fault;
use crate::table::{self, place, row, BLOCKS, DATA, FRAME, GPOS, GPOS_TOTAL, HOST_FRAME, MICRO, POSITION, TABLE, TOTAL, TRAVEL, ZERO};

/// 01's longest piece, and the longest wait inside a unit.
const PIECE: usize = 250;
const WAIT: u32 = 400;

#[derive(Clone, PartialEq, Debug)]
pub struct Second {
    /// Each block's data section at its place, reserved bytes zero.
    pub table: [u8; TABLE],
    /// Steps, microsteps and encoder count.
    pub position: [u8; POSITION],
    /// The position that spos set last: no part of the state, but what a wrong gpos sends.
    pub last_set: [u8; POSITION],
    pub flags: usize,
    /// Block and field last refused.
    pub refused: (usize, usize),
    /// The unfinished unit: its first `len` bytes count.
    pub unit: [u8; FRAME],
    pub len: usize,
    pub stamp: u32,
}

#[derive(Clone, Copy, Default, PartialEq, Debug)]
pub struct Outcome {
    pub number: u8,
    pub order: u8,
    /// Steps and microsteps of order 8 or 9, else zeros.
    pub travel: [u8; TRAVEL],
    pub taken: usize,
    pub written: usize,
    /// How many units this call finished (a count for reports, no part of the answer).
    pub units: usize,
}

enum Meaning {
    Set(usize),
    Get(usize),
    Order(u8),
    /// gpos
    Position,
    /// zero
    Clear,
    Unknown,
}

fn meaning(name: [u8; 4]) -> Meaning {
    if let Some(set) = table::set_named(&name) {
        return Meaning::Set(set);
    }
    if let Some(block) = table::get_named(&name) {
        return Meaning::Get(block);
    }
    if let Some(order) = table::order_named(&name) {
        return Meaning::Order(order as u8);
    }
    match &name {
        GPOS => Meaning::Position,
        ZERO => Meaning::Clear,
        _ => Meaning::Unknown,
    }
}

pub fn crc(bytes: &[u8]) -> u16 {
    let mut register = 0xFFFF;
    for &byte in bytes {
        register ^= byte as u16;
        for _ in 0..8 {
            let out = register & 1;
            register >>= 1;
            if out == 1 {
                register ^= 0xA001;
            }
        }
    }
    register
}

/// What the next byte makes of the unfinished unit.
#[derive(Clone, Copy)]
enum End {
    NotYet,
    Zero,
    Unknown,
    Order(u8),
    Get(usize),
    Position,
    Clear,
    Set(usize),
}

impl End {
    /// The length of its reply.
    fn due(self) -> usize {
        match self {
            End::NotYet => 0,
            End::Zero => 1,
            End::Get(block) => TOTAL[block - 1],
            End::Position => GPOS_TOTAL,
            End::Unknown | End::Order(_) | End::Clear | End::Set(_) => 4,
        }
    }
}

// What a call needs is inlined, so that it holds no test of a fault.
impl Second {
    pub fn fresh() -> Second {
        Second::broken_fresh(Fault::None)
    }

    /// A fresh receiver that is wrong in one place.
    pub fn broken_fresh(fault: Fault) -> Second {
        let mut table = [0; TABLE];
        for block in BLOCKS {
            let fresh = row(block).fresh();
            table[place(block)][..fresh.len()].copy_from_slice(&fresh);
        }
        if fault == Fault::FreshSpeedZero {
            table[place(11)][0] = 0;
        }
        let mut position = [0; POSITION];
        if fault == Fault::FreshPosition {
            position[TRAVEL] = 1;
        }
        Second { table, position, last_set: [0; POSITION], flags: 0, refused: (0, 0), unit: [0; FRAME], len: 0, stamp: 0 }
    }

    /// One call of 01.
    pub fn call(&mut self, piece: &[u8], stamp: u32, reply: &mut [u8]) -> Outcome {
        self.run(Fault::None, piece, stamp, reply)
    }

    /// One call of a receiver that is wrong in one place.
    pub fn broken_call(&mut self, fault: Fault, piece: &[u8], stamp: u32, reply: &mut [u8]) -> Outcome {
        self.run(fault, piece, stamp, reply)
    }

    /// A report of the time; the answer's number.
    pub fn report_clock(&mut self, now: u32) -> u8 {
        self.look(Fault::None, now)
    }

    /// A report of the time to a receiver that is wrong in one place.
    pub fn broken_report_clock(&mut self, fault: Fault, now: u32) -> u8 {
        self.look(fault, now)
    }

    /// A report of the drive's position; the answer's number.
    pub fn report_position(&mut self, position: [u8; POSITION]) -> u8 {
        self.hear(Fault::None, position)
    }

    /// A report of the drive's position to a receiver that is wrong in one place.
    pub fn broken_report_position(&mut self, fault: Fault, position: [u8; POSITION]) -> u8 {
        self.hear(fault, position)
    }

    /// The rule of soundness that the state breaks, if one.
    #[inline(always)]
    pub fn unsound(&self, fault: Fault) -> Option<Fault> {
        match self.len {
            0 => {}
            1..=3 if self.unit[0] == 0 => return Some(Fault::ZeroBegins),
            1..=3 => {}
            4..=FRAME => match self.name() {
                Meaning::Set(set) if self.len >= TOTAL[set - 1] => {
                    return Some(if self.len == FRAME { Fault::LongestHeld } else { Fault::WholeSetBegins });
                }
                Meaning::Set(_) => {}
                _ => return Some(Fault::AnyNameBegins),
            },
            _ => return Some(Fault::CountOverFrame),
        }
        if self.flags > 7 {
            return Some(Fault::FlagsOver7);
        }
        if !MICRO.takes(&self.position[4..TRAVEL]) {
            return Some(Fault::PositionOutOfRange);
        }
        self.unsound_table(fault)
    }

    /// The rule of soundness that the table breaks, if one.
    #[inline(always)]
    pub fn unsound_table(&self, fault: Fault) -> Option<Fault> {
        if fault == Fault::None && table::is_sound(&self.table) {
            return None;
        }
        self.broken_rule(fault)
    }

    fn broken_rule(&self, fault: Fault) -> Option<Fault> {
        for block in BLOCKS {
            let data = &self.table[place(block)];
            let bad = fault.bad_field(block, data);
            if bad != 0 {
                return Some(match row(block).fields.get(bad - 1) {
                    Some(field) if field.has_flags() => Fault::UnknownBit,
                    Some(_) => Fault::FieldOutOfRange,
                    None => Fault::RuleBroken,
                });
            }
            if fault.reserved(block, data).iter().any(|&byte| byte != 0) {
                return Some(Fault::ReservedNotZero);
            }
        }
        None
    }

    fn name(&self) -> Meaning {
        meaning([self.unit[0], self.unit[1], self.unit[2], self.unit[3]])
    }

    #[inline(always)]
    fn raise(&mut self, fault: Fault, bit: usize) {
        self.flags = if fault == Fault::FlagsOverwritten { bit } else { self.flags | bit };
    }

    /// Whether the last byte came too long ago, for a receiver that may subtract plainly or be one off.
    #[inline(always)]
    fn too_late(&self, now: u32, plain: bool, one_off: bool) -> bool {
        let wait = if plain { now.saturating_sub(self.stamp) } else { now.wrapping_sub(self.stamp) };
        wait > if one_off { WAIT - 1 } else { WAIT }
    }

    // The soundness is a right call's, so that a wrong one has to show in calls.
    #[inline(always)]
    fn look(&mut self, fault: Fault, now: u32) -> u8 {
        let refused = match self.unsound(Fault::None) {
            Some(_) => fault != Fault::ReportAcceptsUnsound,
            None => fault == Fault::ReportRefusesSound,
        };
        if refused {
            return 3;
        }
        let late = match fault {
            Fault::ReportDropsAlways => true,
            Fault::ReportDropsNever => false,
            _ => self.too_late(now, fault == Fault::ReportPlainSubtraction, fault == Fault::Report400TooLong),
        };
        if self.len > 0 && late {
            self.len = 0;
            if fault == Fault::ReportFlags {
                self.raise(fault, 1);
            }
        }
        if fault == Fault::ReportSetsStamp {
            self.stamp = now;
        }
        0
    }

    // The soundness is a right call's, as above.
    #[inline(always)]
    fn hear(&mut self, fault: Fault, position: [u8; POSITION]) -> u8 {
        let refused = self.unsound(Fault::None).is_some() && fault != Fault::PositionReportAcceptsUnsound;
        let wide = fault.reported_wide(&position[4..TRAVEL]);
        if refused && !(wide && fault == Fault::PositionReportRangeFirst) {
            return 3;
        }
        if wide {
            if fault == Fault::PositionReportStoresRefused {
                self.position = position;
            }
            return 5;
        }
        match fault {
            Fault::PositionReportChangesNothing => return 0,
            Fault::PositionReportLeavesCount => self.position[..TRAVEL].copy_from_slice(&position[..TRAVEL]),
            _ => self.position = position,
        }
        match fault {
            Fault::PositionReportDrops => self.len = 0,
            Fault::PositionReportSetsStamp => self.stamp = 0,
            _ => {}
        }
        0
    }

    /// The answer's number, if the call ends before its first byte.
    #[inline(always)]
    fn refusal(&self, fault: Fault, piece: usize, room: usize) -> Option<u8> {
        let long = piece > if fault == Fault::PieceOneOff { PIECE - 1 } else { PIECE };
        let least = match fault {
            Fault::RoomOneOff => FRAME - 1,
            Fault::RoomOf01 => HOST_FRAME,
            _ => FRAME,
        };
        let short = room < least;
        if fault == Fault::RefusesEachCall {
            return Some(3);
        }
        if short && fault == Fault::RefusalsExchanged {
            return Some(2);
        }
        if long {
            return Some(1);
        }
        if short {
            return Some(2);
        }
        self.unsound(fault).map(|rule| if rule == fault { 0 } else { 3 })
    }

    /// The whole call of a receiver that is wrong before its first byte.
    #[inline(always)]
    fn other_call(&mut self, fault: Fault, piece: &[u8], stamp: u32, reply: &mut [u8]) -> Option<Outcome> {
        match fault {
            Fault::TakesNoByte => Some(Outcome::default()),
            Fault::EmptySetsStamp if piece.is_empty() => {
                self.stamp = stamp;
                Some(Outcome::default())
            }
            Fault::EchoesLater if *self != Second::fresh() => {
                let n = piece.len().min(reply.len());
                reply[..n].copy_from_slice(&piece[..n]);
                self.stamp = if n > 0 { stamp } else { self.stamp };
                Some(Outcome { taken: n, written: n, ..Outcome::default() })
            }
            _ => None,
        }
    }

    /// The set that has begun, once its name is there, else 0.
    #[inline(always)]
    fn begun(&self) -> usize {
        match self.len {
            0..=3 => 0,
            _ => match self.name() {
                Meaning::Set(set) => set,
                _ => 0,
            },
        }
    }

    /// What this byte makes of the unfinished unit; a set that has begun is noted.
    #[inline(always)]
    fn end(&self, fault: Fault, byte: u8, begun: &mut usize) -> End {
        match self.len {
            0 if byte == 0 => End::Zero,
            0..=2 => End::NotYet,
            3 => match meaning([self.unit[0], self.unit[1], self.unit[2], byte]) {
                Meaning::Set(set) => {
                    *begun = set;
                    End::NotYet
                }
                Meaning::Get(block) => End::Get(block),
                Meaning::Order(order) => End::Order(order),
                Meaning::Position => End::Position,
                Meaning::Clear => End::Clear,
                Meaning::Unknown => End::Unknown,
            },
            _ if byte == 0 && fault == Fault::ZeroResynchronises => End::Zero,
            at if at + 1 == TOTAL[*begun - 1] => End::Set(*begun),
            _ => End::NotYet,
        }
    }

    #[inline(always)]
    fn run(&mut self, fault: Fault, piece: &[u8], stamp: u32, reply: &mut [u8]) -> Outcome {
        if let Some(number) = self.refusal(fault, piece.len(), reply.len()) {
            return Outcome { number, ..Outcome::default() };
        }
        if let Some(out) = self.other_call(fault, piece, stamp, reply) {
            return out;
        }
        let mut out = Outcome::default();
        let mut begun = self.begun();
        for &byte in piece {
            if self.too_late(stamp, fault == Fault::PlainSubtraction, fault == Fault::FourHundredTooLong) {
                self.len = 0;
            }
            let end = self.end(fault, byte, &mut begun);
            let due = end.due();
            let left = reply.len() - out.written;
            if due > left || (fault == Fault::FitOneOff && due == left && out.taken > 0) {
                break;
            }
            out.taken += 1;
            self.take(fault, byte, stamp, begun);
            if let End::NotYet = end {
                continue;
            }
            self.answer(fault, end, &mut reply[out.written..out.written + due], &mut out);
            let stops = match end {
                End::Clear => fault == Fault::ZeroStopsCall,
                _ => out.order != 0 && fault != Fault::GoesOnAfterOrder,
            };
            if stops {
                break;
            }
        }
        if fault == Fault::InventsTheCount {
            out.taken = piece.len();
        }
        out
    }

    /// Puts a byte behind the unfinished ones.
    #[inline(always)]
    fn take(&mut self, fault: Fault, byte: u8, stamp: u32, begun: usize) {
        let at = self.len;
        if fault != Fault::StampNotSet {
            self.stamp = stamp;
        }
        self.unit[at] = byte;
        self.len = at + 1;
        if fault == Fault::StoredAsTheyCome && at >= 4 && BLOCKS.contains(&begun) && at < 4 + row(begun).used() {
            self.table[place(begun)][at - 4] = byte;
        }
    }

    /// A whole unit: its reply, and the order that it gives.
    #[inline(always)]
    fn answer(&mut self, fault: Fault, end: End, to: &mut [u8], out: &mut Outcome) {
        self.len = 0;
        out.units += 1;
        out.written += to.len();
        match end {
            End::NotYet => {}
            End::Zero => to[0] = 0,
            End::Unknown => {
                to.copy_from_slice(b"errc");
                self.raise(fault, 1);
                if fault == Fault::ErrcSlidesByOne {
                    self.unit.copy_within(1..4, 0);
                    self.len = 3;
                }
            }
            End::Order(order) => {
                to.copy_from_slice(&self.unit[..4]);
                out.order = order;
            }
            End::Get(block) => self.send(fault, &self.table[fault.place(block, Fault::GetElsewhere, Fault::GetOneLater)], to),
            End::Position => self.send_position(fault, to),
            End::Clear => self.clear(fault, to, out),
            End::Set(set) => to.copy_from_slice(&self.judge(fault, set, out)),
        }
        if fault == Fault::ConstantReply {
            to.fill(b'e');
        }
    }

    /// A get's reply, which has room for its data section.
    #[inline(always)]
    fn send(&self, fault: Fault, data: &[u8], to: &mut [u8]) {
        let end = to.len() - 2;
        let sum = crc(data);
        to[..4].copy_from_slice(&self.unit[..4]);
        to[4..end].copy_from_slice(data);
        to[end..].copy_from_slice(&match fault {
            Fault::CrcSentHighByteFirst => sum.to_be_bytes(),
            _ => sum.to_le_bytes(),
        });
    }

    /// A reply to gpos.
    #[inline(always)]
    fn send_position(&self, fault: Fault, to: &mut [u8]) {
        let mut position = if fault == Fault::GposSendsWhatWasSet { self.last_set } else { self.position };
        if fault == Fault::GposExchanged {
            position[..TRAVEL].rotate_left(4);
        }
        let mut data = [0; GPOS_TOTAL - 6];
        data[..POSITION].copy_from_slice(&position);
        self.send(fault, &data, to);
    }

    /// The command zero.
    #[inline(always)]
    fn clear(&mut self, fault: Fault, to: &mut [u8], out: &mut Outcome) {
        let cleared = match fault {
            Fault::ZeroClearsCount => POSITION,
            Fault::ZeroKeepsMicrosteps => 4,
            _ => TRAVEL,
        };
        self.position[..cleared].fill(0);
        to.copy_from_slice(&self.unit[..4]);
        match fault {
            Fault::ZeroNotEchoed => to.fill(0),
            Fault::ZeroGivesOrder => out.order = 8,
            _ => {}
        }
    }

    /// A whole set: its CRC, then its fields; the reply.
    #[inline(always)]
    fn judge(&mut self, fault: Fault, set: usize, out: &mut Outcome) -> [u8; 4] {
        let total = TOTAL[set - 1];
        let sent = match fault {
            Fault::CrcHighByteFirst => u16::from_be_bytes([self.unit[total - 2], self.unit[total - 1]]),
            _ => u16::from_le_bytes([self.unit[total - 2], self.unit[total - 1]]),
        };
        let from = if fault == Fault::CrcOverIdentifier { 0 } else { 4 };
        let damaged = crc(&self.unit[from..total - 2]) != sent;
        if damaged && fault != Fault::RangeBeforeCrc {
            self.raise(fault, 2);
            return *b"errd";
        }
        let mut data = [0; DATA];
        data.copy_from_slice(&self.unit[4..4 + DATA]);
        let section = &data[..total - 6];
        let bad = fault.bad_field(set, section);
        if bad != 0 {
            self.raise(fault, 4);
            self.refused = (if fault == Fault::MovrRefusedAsMove && set == 9 { 8 } else { set }, bad);
            if fault == Fault::HalfASetting && BLOCKS.contains(&set) {
                let half = row(set).used() / 2;
                self.table[place(set)][..half].copy_from_slice(&section[..half]);
            }
            return *b"errv";
        }
        if damaged {
            self.raise(fault, 2);
            return *b"errd";
        }
        match set {
            8 | 9 => self.travel(fault, set, &data, out),
            10 => self.put_position(fault, &data),
            _ => self.keep(fault, set, section),
        }
        [self.unit[0], self.unit[1], self.unit[2], self.unit[3]]
    }

    /// Keeps a block's data section at its place, reserved bytes zero.
    #[inline(always)]
    fn keep(&mut self, fault: Fault, block: usize, section: &[u8]) {
        let used = section.len() - row(block).reserved;
        let kept = match fault {
            Fault::ReservedKept => section.len(),
            Fault::PutOneShort => used - 1,
            _ => used,
        };
        let at = fault.place(block, Fault::PutElsewhere, Fault::PutOneLater);
        if fault == Fault::PutOneOver && at.end < TABLE {
            self.table[at.end] = 0;
        }
        let to = &mut self.table[at];
        to[..kept].copy_from_slice(&section[..kept]);
        to[kept.max(used)..].fill(0);
        if block == 11 {
            fault.misplace(Fault::PutSpeedsExchanged, Fault::PutPartsBehindTimeouts, to);
        }
    }

    /// An accepted move or movr.
    #[inline(always)]
    fn travel(&mut self, fault: Fault, set: usize, data: &[u8; DATA], out: &mut Outcome) {
        out.order = if fault == Fault::OrderNineForEight { 9 } else { set as u8 };
        if fault != Fault::TravelLeftOut {
            out.travel.copy_from_slice(&data[..TRAVEL]);
        }
        match fault {
            Fault::TravelExchanged => out.travel.rotate_left(2),
            Fault::MoveStored => self.position[..TRAVEL].copy_from_slice(&data[..TRAVEL]),
            _ => {}
        }
    }

    /// An accepted spos: its flags leave steps and microsteps, or the count.
    #[inline(always)]
    fn put_position(&mut self, fault: Fault, data: &[u8; DATA]) {
        let flags = data[POSITION];
        let leaves_travel = flags & 1 != 0;
        let leaves_count = match fault {
            Fault::Flag1LeavesCount => flags != 0,
            Fault::Flag2Ignored => false,
            _ => flags & 2 != 0,
        };
        if !leaves_travel {
            self.position[..TRAVEL].copy_from_slice(&data[..TRAVEL]);
        }
        if !leaves_count {
            self.position[TRAVEL..].copy_from_slice(&data[TRAVEL..POSITION]);
        }
        self.last_set = self.position;
    }
}

#[cfg(test)]
mod tests {
    use super::*;
    use crate::generator::{self, Random};

    fn set(name: &[u8; 4], front: &[u8], zeros: usize, sum: [u8; 2]) -> Vec<u8> {
        [&name[..], front, &vec![0; zeros], &sum].concat()
    }

    /// Offers a piece at a stamp, all of it; the replies and orders.
    fn offer(second: &mut Second, mut piece: &[u8], stamp: u32) -> (Vec<u8>, Vec<u8>) {
        let (mut replies, mut orders) = (vec![], vec![]);
        while !piece.is_empty() {
            let mut reply = [0xAA; FRAME];
            let out = second.call(piece, stamp, &mut reply);
            assert_eq!(out.number, 0);
            assert!(out.taken > 0);
            replies.extend(&reply[..out.written]);
            orders.extend((out.order != 0).then_some(out.order));
            piece = &piece[out.taken..];
        }
        (replies, orders)
    }

    #[test]
    fn checksums() {
        let cases: [(&[u8], u16); 5] = [(b"", 0xFFFF), (b"\0", 0x40BF), (b"\xFF", 0x00FF), (b"\xFF\xFF", 0), (b"123456789", 0x4B37)];
        for (bytes, sum) in cases {
            assert_eq!(crc(bytes), sum);
        }
    }

    #[test]
    fn sets_and_gets() {
        let mut second = Second::fresh();
        assert_eq!(offer(&mut second, &set(b"sbrk", &[0xFF; 2], 17, [1, 0]), 0).0, b"errd");
        assert_eq!((&second.table[place(6)], second.flags), (&[0; 19][..], 2));
        assert_eq!(offer(&mut second, &set(b"sbrk", &[0xFF; 2], 17, [0, 0]), 0).0, b"sbrk");
        assert_eq!(offer(&mut second, b"gbrk", 0).0, set(b"gbrk", &[0xFF; 2], 17, [0, 0]));
        assert_eq!(offer(&mut second, &set(b"smov", &[0xFF; 2], 22, [0, 0]), 0).0, b"errv");
        assert_eq!((second.refused, second.flags, second.table[0]), ((1, 3), 6, 0));
        assert_eq!(offer(&mut second, &set(b"spwr", &[0xFF; 2], 12, [0, 0]), 0).0, b"errv");
        assert_eq!(second.refused, (3, 1));
    }

    /// Each bit of each flag field alone: the field that is bad, and whether the state is sound.
    #[test]
    fn flag_bits() {
        // Block, field, its place and bits, the known ones.
        let flags = [
            (2, 5, 9, 16, 0xFF),
            (3, 5, 7, 8, 0x07),
            (4, 1, 0, 8, 0x0F),
            (4, 2, 1, 8, 0x07),
            (5, 7, 16, 16, 0x1FF),
            (6, 5, 8, 8, 0x03),
            (11, 31, 70, 16, 0x0F),
            (12, 6, 8, 8, 0x01),
        ];
        for (block, field, at, bits, known) in flags {
            for bit in 0..bits {
                let mut second = Second::fresh();
                let data = &mut second.table[place(block)];
                data[at + bit / 8] |= 1 << (bit % 8);
                let (bad, number) = if known >> bit & 1 == 1 { (0, 0) } else { (field, 3) };
                assert_eq!(table::bad_field(block, data), bad);
                assert_eq!(second.call(b"", 0, &mut [0; FRAME]).number, number);
            }
        }
    }

    /// Sets go to their places with their reserved bytes zero, and a state with any of these not zero is not sound.
    #[test]
    fn one_table() {
        let mut second = Second::fresh();
        for block in BLOCKS {
            let before = second.table;
            let section = [row(block).fresh(), vec![block as u8; row(block).reserved]].concat();
            assert_eq!(offer(&mut second, &row(block).set_frame(&section), 0).0, row(block).set);
            assert_eq!(second.table, before);
        }
        assert_eq!(offer(&mut second, &set(b"sbrk", &[0xFF; 2], 17, [0, 0]), 0).0, b"sbrk");
        let mut table = Second::fresh().table;
        table[113..115].fill(0xFF);
        assert_eq!(second.table, table);
        let mut reserved = 0;
        for block in BLOCKS {
            for at in place(block).skip(row(block).used()) {
                let mut second = second.clone();
                second.table[at] = 1;
                assert_eq!(second.call(b"", 0, &mut [0; FRAME]).number, 3);
                reserved += 1;
            }
        }
        assert_eq!(reserved, 93);
    }

    /// Written out or by a loop, the soundness of a table is the same.
    #[test]
    fn tables() {
        let mut random = Random(1);
        let mut sound = [0; 2];
        for _ in 0..10_000 {
            let Ok(table) = generator::stored(&mut random).try_into() else { continue };
            let second = Second { table, ..Second::fresh() };
            let broken = second.broken_rule(Fault::None);
            assert_eq!(table::is_sound(&second.table), broken.is_none());
            sound[broken.is_none() as usize] += 1;
        }
        assert!(sound.iter().all(|&tables| tables > 1000));
    }

    #[test]
    fn flags_in_numbered_order() {
        let mut eng = Second::fresh().table[place(2)].to_vec();
        for (at, field) in [(13, 7), (10, 5), (7, 3)] {
            eng[at] = 0xFF;
            assert_eq!(table::bad_field(2, &eng), field);
        }
    }

    #[test]
    fn names_zeros_and_waits() {
        let mut second = Second::fresh();
        assert_eq!(offer(&mut second, b"right", 0).0, b"errc");
        assert_eq!(second.len, 1);
        let mut second = Second::fresh();
        assert_eq!(offer(&mut second, b"s\0\0\0\0", 0).0, b"errc\0");
        for (stamp, orders, len) in [(304, vec![1], 0), (305, vec![], 2)] {
            let mut second = Second::fresh();
            offer(&mut second, b"st", 4294967200);
            assert_eq!(offer(&mut second, b"op", stamp).1, orders);
            assert_eq!(second.len, len);
        }
    }

    #[test]
    fn reports() {
        // 400 ms after the last byte, 401, and the last moment before the counter has come round.
        for (now, orders, len) in [(304, vec![1], 0), (305, vec![], 2), (4294967199, vec![], 2)] {
            let mut second = Second::fresh();
            offer(&mut second, b"st", 4294967200);
            assert_eq!((second.report_clock(now), second.stamp, second.flags), (0, 4294967200, 0));
            assert_eq!(offer(&mut second, b"op", 4).1, orders);
            assert_eq!(second.len, len);
        }
        let unsound = Second { len: FRAME + 1, ..Second::fresh() };
        let mut second = unsound.clone();
        assert_eq!((second.report_clock(401), second), (3, unsound));
    }

    fn travel(steps: i32, microsteps: i16) -> [u8; TRAVEL] {
        let (s, m) = (steps.to_le_bytes(), microsteps.to_le_bytes());
        [s[0], s[1], s[2], s[3], m[0], m[1]]
    }

    fn position(steps: i32, microsteps: i16, count: i64) -> [u8; POSITION] {
        let bytes = [&travel(steps, microsteps)[..], &count.to_le_bytes()].concat();
        bytes.try_into().expect("a whole position")
    }

    /// 004's worked movr with the CRC that it has there, and with the right one; what a refused one leaves.
    #[test]
    fn travels() {
        let mut second = Second::fresh();
        let front = [200, 0, 0, 0];
        assert_eq!(offer(&mut second, &set(b"movr", &front, 8, [0x53, 0xC7]), 0), (b"errd".to_vec(), vec![]));
        let mut reply = [0; FRAME];
        let piece = [&set(b"movr", &front, 8, [0x86, 0x9C])[..], b"stop"].concat();
        let out = second.call(&piece, 0, &mut reply);
        assert_eq!((out.taken, out.order, out.travel, &reply[..out.written]), (18, 9, travel(200, 0), &b"movr"[..]));
        let extreme = [&travel(i32::MIN, -255)[..], &[7; 6]].concat();
        let out = second.call(&row(8).set_frame(&extreme), 0, &mut reply);
        assert_eq!((out.order, out.travel), (8, travel(i32::MIN, -255)));
        for (number, microsteps) in [(8, 256), (9, -256)] {
            let section = [&travel(1, microsteps)[..], &[0; 6]].concat();
            assert_eq!(offer(&mut second, &row(number).set_frame(&section), 0), (b"errv".to_vec(), vec![]));
            assert_eq!(second.refused, (number, 2));
        }
        assert_eq!((second.position, second.flags), ([0; POSITION], 6));
    }

    fn spos(position: [u8; POSITION], flags: u8) -> Vec<u8> {
        row(10).set_frame(&[&position[..], &[flags], &[0; 5]].concat())
    }

    /// What each flag leaves, what is refused, and what zero keeps.
    #[test]
    fn positions() {
        let set = position(i32::MIN, -255, i64::MIN);
        let stood = position(3, 2, 1);
        let kept = [(0, set), (1, position(3, 2, i64::MIN)), (2, position(i32::MIN, -255, 1)), (3, stood)];
        for (flags, next) in kept {
            let mut second = Second { position: stood, ..Second::fresh() };
            assert_eq!(offer(&mut second, &spos(set, flags), 0), (b"spos".to_vec(), vec![]));
            assert_eq!(second.position, next);
            let answer = offer(&mut second, b"gpos", 0).0;
            assert_eq!((&answer[..4], &answer[4..18], &answer[18..24]), (&b"gpos"[..], &next[..], &[0; 6][..]));
            assert_eq!(answer[24..], crc(&answer[4..24]).to_le_bytes());
            assert_eq!(offer(&mut second, b"zero", 0), (b"zero".to_vec(), vec![]));
            assert_eq!((&second.position[..TRAVEL], &second.position[TRAVEL..]), (&[0; TRAVEL][..], &next[TRAVEL..]));
        }
        // Microsteps are tested where they are left, and before the flags.
        for (microsteps, flags, field) in [(255, 4, 4), (256, 3, 2), (-256, 4, 2)] {
            let mut second = Second { position: stood, ..Second::fresh() };
            assert_eq!(offer(&mut second, &spos(position(0, microsteps, 0), flags), 0).0, b"errv");
            assert_eq!((second.refused, second.position), ((10, field), stood));
        }
    }

    /// A report inside gpos, one that is refused, and one to a state that is not sound.
    #[test]
    fn position_reports() {
        let mut second = Second::fresh();
        offer(&mut second, b"gp", 7);
        for (microsteps, number) in [(-256, 5), (-255, 0), (256, 5), (255, 0)] {
            let before = second.clone();
            let next = position(-1, microsteps, -1);
            assert_eq!(second.report_position(next), number);
            assert_eq!(second, Second { position: if number == 0 { next } else { before.position }, ..before });
        }
        assert_eq!(offer(&mut second, b"os", 407).0[4..18], position(-1, 255, -1));
        let unsound = Second { position: position(0, 256, 0), ..Second::fresh() };
        for microsteps in [0, 256] {
            let mut second = unsound.clone();
            assert_eq!((second.report_position(position(0, microsteps, 0)), second), (3, unsound.clone()));
        }
        assert_eq!(unsound.clone().call(b"", 0, &mut [0; FRAME]).number, 3);
        for (held, number) in [(17, 0), (18, 3)] {
            let mut second = Second { len: held, ..Second::fresh() };
            second.unit[..4].copy_from_slice(b"move");
            assert_eq!(second.call(b"", 0, &mut [0; FRAME]).number, number);
        }
    }

    /// ctl refused by its rule, which is looked at behind the ranges and stores nothing; taken, sent in the least room, and the rule of a state.
    #[test]
    fn pendant() {
        let mut second = Second::fresh();
        // A first speed of 0 and a second that makes the CRC 0; then flags of 0x10 besides, and the CRC of that.
        let zero = set(b"sctl", &[0, 0, 0, 0, 0x00, 0x24], 81, [0, 0]);
        assert_eq!(offer(&mut second, &zero, 0), (b"errv".to_vec(), vec![]));
        assert_eq!((second.refused, second.flags, &second.table), ((11, 99), 4, &Second::fresh().table));
        let mut data = zero[4..91].to_vec();
        data[70] = 0x10;
        assert_eq!(offer(&mut second, &row(11).set_frame(&data), 0).0, b"errv");
        assert_eq!(second.refused, (11, 31));
        let fast = set(b"sctl", &[0xFF; 2], 85, [0, 0]);
        assert_eq!(offer(&mut second, &fast[..92], 0), (vec![], vec![]));
        assert_eq!((second.len, offer(&mut second, &fast[92..], 0).0), (92, b"sctl".to_vec()));
        assert_eq!(offer(&mut second, b"gctl", 0).0, set(b"gctl", &[0xFF; 2], 85, [0, 0]));
        second.table[place(11)][..2].fill(0);
        assert_eq!(second.call(b"", 0, &mut [0; FRAME]).number, 3);
        // The part alone keeps the rule.
        second.table[place(11)][40] = 1;
        assert_eq!(second.call(b"", 0, &mut [0; FRAME]).number, 0);
        second.table[place(12)][0] = 1;
        assert_eq!(second.call(b"", 0, &mut [0; FRAME]).number, 3);
    }

    #[test]
    fn refusals() {
        let mut second = Second::fresh();
        let (room, short) = (&mut [0; FRAME], &mut [0; FRAME - 1]);
        assert_eq!(second.call(&[0; PIECE + 1], 0, short).number, 1);
        assert_eq!(second.call(&[0; PIECE + 1], 0, room).number, 1);
        assert_eq!(second.call(&[0; PIECE], 0, short).number, 2);
        assert_eq!(second.call(b"gpidgpid", 0, room).taken, 7);
        assert_eq!((room.len(), second.call(b"", 0, short).number), (93, 2));
        for held in [FRAME - 1, FRAME] {
            let mut second = Second { len: held, ..Second::fresh() };
            second.unit[..4].copy_from_slice(b"sctl");
            assert_eq!(second.call(b"", 0, room).number, if held < FRAME { 0 } else { 3 });
        }
        let mut unsound = Second { len: 1, ..Second::fresh() };
        assert_eq!(unsound.call(b"", 0, room).number, 3);
        assert_eq!(unsound.call(b"", 0, short).number, 2);
    }
}
