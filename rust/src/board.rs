//! The proved receiver, libboard.a, and the comparison of two boards, libsame.a, behind safe types.
//!
//! A `Board` comes from `fresh` or `take_back` and changes by `receive`, `report_clock` and `report_position` only (tests aside), so it is
//! always sound.
//! What a call took and wrote comes as slices: the rest that is to be offered again, and the reply.

use crate::blocks::{Brk, Ctl, Eds, Eng, Hom, Joy, Mov, Pid, Pwr};
use crate::position::{Microsteps, Position, Steps, Travel};

/// The longest frame that a board takes, which is also its longest answer.
pub const FRAME: usize = 93;
/// The least room for replies that a call accepts: that of the longest answer.
pub const ROOM: usize = FRAME;
/// The longest piece that a call accepts.
pub const PIECE: usize = 250;
/// The bytes of all settings: the blocks 1 to 7, 11 and 12, each as its get sends it without name and CRC.
pub const TABLE: usize = 277;
/// Instead of a refused field's number: every field was in its range, but the rule over the block's fields was broken.
pub const RULE: usize = 99;

/// A board's settings: the blocks in number order, one behind the other, reserved bytes zero.
#[repr(C)]
#[derive(Clone, Copy, PartialEq, Debug)]
pub struct Settings {
    pub bytes: [u8; TABLE],
}

#[repr(C)]
#[derive(Clone, Copy, PartialEq, Debug)]
pub struct Notes {
    pub flags: usize,
    pub block: usize,
    pub field: usize,
}

/// What a board remembers of the units that have ended.
#[repr(C)]
#[derive(Clone, Copy, PartialEq, Debug)]
pub struct Memory {
    pub settings: Settings,
    pub notes: Notes,
    pub position: Position,
}

/// What a board consists of. Every value can be handed to the library: it answers `Unsound` to those that no board reaches.
#[repr(C)]
#[derive(Clone, Copy, PartialEq, Debug)]
pub struct Parts {
    pub memory: Memory,
    pub held: [u8; FRAME],
    pub count: usize,
    pub stamp: u32,
}

/// A board but for its arrays, which are lent to a call.
#[repr(C)]
struct Rest {
    notes: Notes,
    position: Position,
    count: usize,
    stamp: u32,
}

#[repr(C)]
struct Answer {
    rest: Rest,
    taken: usize,
    written: usize,
    steps: Steps,
    microsteps: Microsteps,
    number: u8,
    order: u8,
}

#[repr(C)]
struct Report {
    number: u8,
    board: Parts,
}

// The library's words have 64 bits, and so have Rust's.
const _: () = assert!(usize::BITS == 64);

extern "C" {
    // A library whose structs are laid out in another way has another number in these names, and does not link.
    #[link_name = "rivertosku_fresh_4"]
    fn rivertosku_fresh() -> Parts;
    #[link_name = "rivertosku_judge_4"]
    fn rivertosku_judge(board: Parts) -> u8;
    #[link_name = "rivertosku_same_4"]
    fn rivertosku_same(a: Parts, b: Parts) -> u8;
    #[link_name = "rivertosku_receive_4"]
    fn rivertosku_receive_lent(
        table: &mut [u8; TABLE],
        held: &mut [u8; FRAME],
        rest: Rest,
        piece: *const u8,
        piece_len: usize,
        stamp: u32,
        reply: *mut u8,
        reply_len: usize,
    ) -> Answer;
    #[link_name = "rivertosku_report_clock_4"]
    fn rivertosku_report_clock(board: Parts, now: u32) -> Report;
    #[link_name = "rivertosku_report_position_4"]
    fn rivertosku_report_position(board: Parts, position: Position) -> Report;
    #[link_name = "rivertosku_hand_out_4"]
    fn rivertosku_hand_out(board: Parts, out: *mut u8, out_len: usize) -> u8;
    #[link_name = "rivertosku_take_back_4"]
    fn rivertosku_take_back(bytes: *const u8, bytes_len: usize) -> Report;
}

/// 01's number of a call's answer. A report of the time answers `Accepted` or `Unsound`, one of the position `MicrostepsOutOfRange` too,
/// which no call answers.
#[derive(Clone, Copy, PartialEq, Eq, Debug)]
pub enum Number {
    Accepted = 0,
    PieceTooLong = 1,
    RoomTooSmall = 2,
    Unsound = 3,
    MicrostepsOutOfRange = 5,
}

impl Number {
    /// The number that the library answered.
    fn answered(number: u8) -> Number {
        match number {
            0 => Number::Accepted,
            1 => Number::PieceTooLong,
            2 => Number::RoomTooSmall,
            3 => Number::Unsound,
            5 => Number::MicrostepsOutOfRange,
            n => panic!("the library answered number {n}"),
        }
    }
}

/// The number of a table handed out or taken back.
#[must_use = "a table that is refused is not written, or not the new board's"]
#[derive(Clone, Copy, PartialEq, Eq, Debug)]
pub enum TableNumber {
    Accepted = 0,
    /// Taken back: not `TABLE` bytes.
    AnotherLength = 1,
    /// Handed out: a buffer under `TABLE` bytes.
    OutTooSmall = 2,
    Unsound = 3,
}

impl TableNumber {
    /// The number that the library answered.
    fn answered(number: u8) -> TableNumber {
        match number {
            0 => TableNumber::Accepted,
            1 => TableNumber::AnotherLength,
            2 => TableNumber::OutTooSmall,
            3 => TableNumber::Unsound,
            n => panic!("the library answered number {n}"),
        }
    }
}

/// An order; a move and a movr carry where to and how far.
#[derive(Clone, Copy, PartialEq, Eq, Debug)]
pub enum Order {
    Stop,
    Sstp,
    Pwof,
    Left,
    Rigt,
    Home,
    Loft,
    Move(Travel),
    Movr(Travel),
}

impl Order {
    /// The sheets' number of the order.
    pub fn number(self) -> u8 {
        match self {
            Order::Stop => 1,
            Order::Sstp => 2,
            Order::Pwof => 3,
            Order::Left => 4,
            Order::Rigt => 5,
            Order::Home => 6,
            Order::Loft => 7,
            Order::Move(_) => 8,
            Order::Movr(_) => 9,
        }
    }

    /// The order that the library answered, if one, with its travel, which is zeros where the order carries none.
    fn answered(number: u8, travel: Travel) -> Option<Order> {
        assert!(number >= 8 || travel == Travel::default(), "the library answered order {number} with {travel:?}");
        Some(match number {
            0 => return None,
            1 => Order::Stop,
            2 => Order::Sstp,
            3 => Order::Pwof,
            4 => Order::Left,
            5 => Order::Rigt,
            6 => Order::Home,
            7 => Order::Loft,
            8 => Order::Move(travel),
            9 => Order::Movr(travel),
            n => panic!("the library answered order {n}"),
        })
    }
}

/// What a call answers.
#[must_use = "the order is to be carried out, the reply sent, and the rest of the piece offered again with its stamp"]
#[derive(Debug)]
pub struct Call<'p, 'r> {
    pub number: Number,
    pub taken: usize,
    pub order: Option<Order>,
    /// The bytes not taken.
    pub rest: &'p [u8],
    /// The bytes written.
    pub reply: &'r [u8],
}

impl Parts {
    /// A call on the board where it stands.
    ///
    /// # Safety
    ///
    /// Piece and reply are live, of these lengths, apart from each other and from the board; null is fine where the length is 0.
    unsafe fn receive(&mut self, piece: *const u8, piece_len: usize, stamp: u32, reply: *mut u8, reply_len: usize) -> Answer {
        let rest = Rest { notes: self.memory.notes, position: self.memory.position, count: self.count, stamp: self.stamp };
        let answer =
            rivertosku_receive_lent(&mut self.memory.settings.bytes, &mut self.held, rest, piece, piece_len, stamp, reply, reply_len);
        self.memory.notes = answer.rest.notes;
        self.memory.position = answer.rest.position;
        self.count = answer.rest.count;
        self.stamp = answer.rest.stamp;
        answer
    }
}

/// A board's state between calls.
#[derive(Clone, PartialEq, Debug)]
pub struct Board(Parts);

impl Board {
    /// A board that has taken nothing yet.
    pub fn fresh() -> Board {
        // SAFETY: no arguments; the struct is the library's, field for field.
        Board(unsafe { rivertosku_fresh() })
    }

    /// `Accepted`, or `Unsound` where no board can be in this state; does nothing else.
    pub fn judge(&self) -> Number {
        // SAFETY: no memory is handed over; any board value is allowed.
        Number::answered(unsafe { rivertosku_judge(self.0) })
    }

    /// Whether two boards are the same: stamp, notes, position, unfinished bytes, and the table byte for byte, so minus zero is not zero.
    /// Spare bytes play no part, which `==` compares too. `None` where one of the two is unsound.
    pub fn same(&self, other: &Board) -> Option<bool> {
        // SAFETY: no memory is handed over; any board values are allowed.
        match unsafe { rivertosku_same(self.0, other.0) } {
            0 => Some(true),
            1 => Some(false),
            3 => None,
            n => panic!("the library answered {n}"),
        }
    }

    /// One call: a piece of bytes that share a stamp in milliseconds, and room for the replies. A refused call changes nothing.
    pub fn receive<'p, 'r>(&mut self, piece: &'p [u8], stamp: u32, reply: &'r mut [u8]) -> Call<'p, 'r> {
        // SAFETY: all four are live, of these lengths, and apart; the library keeps none; any board value is allowed.
        let answer = unsafe { self.0.receive(piece.as_ptr(), piece.len(), stamp, reply.as_mut_ptr(), reply.len()) };
        Call {
            number: Number::answered(answer.number),
            taken: answer.taken,
            order: Order::answered(answer.order, Travel { steps: answer.steps, microsteps: answer.microsteps }),
            rest: &piece[answer.taken..],
            reply: &reply[..answer.written],
        }
    }

    /// The time, by the counter that stamps the bytes. Unfinished bytes are dropped, without reply or flag, if the last byte came over
    /// 400 ms ago; nothing else changes, the last stamp neither, so a report does not restart the wait.
    ///
    /// A call looks at the clock only when a byte comes. While something is unfinished, the main loop has to report at least every
    /// 2^32 - 401 ms (some 49.7 days), counted from the last byte or report, or half a command may be resumed when the counter has come
    /// round; once a second or once a minute is plenty. Bytes that came earlier and are not yet taken may be offered behind a report, with
    /// their own stamp. Never report a time from before the last stamp handed over: it reads as a wait of 49 days, and drops a live command.
    pub fn report_clock(&mut self, now: u32) -> Number {
        // SAFETY: no memory is handed over; any board value is allowed.
        let report = unsafe { rivertosku_report_clock(self.0, now) };
        self.0 = report.board;
        Number::answered(report.number)
    }

    /// The position of the drive. `MicrostepsOutOfRange` where its microsteps lie outside -255..255, and nothing changes; else it is the
    /// board's, which gpos sends, and nothing else changes: an unfinished unit stays, and the last stamp.
    pub fn report_position(&mut self, position: Position) -> Number {
        // SAFETY: no memory is handed over; any board value is allowed.
        let report = unsafe { rivertosku_report_position(self.0, position) };
        self.0 = report.board;
        Number::answered(report.number)
    }

    /// For a flash writer: the table at the front of `out`, whose bytes past it are kept. `OutTooSmall`, tested first, or `Unsound`, and
    /// `out` is as it was.
    pub fn hand_out(&self, out: &mut [u8]) -> TableNumber {
        // SAFETY: the buffer is live and of this length; the library does not keep it; any board value is allowed.
        TableNumber::answered(unsafe { rivertosku_hand_out(self.0, out.as_mut_ptr(), out.len()) })
    }

    /// A board with the settings of a table that was handed out, and everything else fresh. `AnotherLength`, tested first, or `Unsound`
    /// where a field is out of its range, a block's rule is broken or a reserved byte is not zero; the board is then a fresh one.
    pub fn take_back(bytes: &[u8]) -> (TableNumber, Board) {
        // SAFETY: the bytes are live and of this length; the library does not keep them.
        let report = unsafe { rivertosku_take_back(bytes.as_ptr(), bytes.len()) };
        (TableNumber::answered(report.number), Board(report.board))
    }

    /// The settings as they are kept.
    pub fn table(&self) -> &[u8; TABLE] {
        &self.0.memory.settings.bytes
    }

    pub fn mov(&self) -> Mov {
        Mov::of(self.table())
    }

    pub fn eng(&self) -> Eng {
        Eng::of(self.table())
    }

    pub fn pwr(&self) -> Pwr {
        Pwr::of(self.table())
    }

    pub fn eds(&self) -> Eds {
        Eds::of(self.table())
    }

    pub fn hom(&self) -> Hom {
        Hom::of(self.table())
    }

    pub fn brk(&self) -> Brk {
        Brk::of(self.table())
    }

    pub fn pid(&self) -> Pid {
        Pid::of(self.table())
    }

    pub fn ctl(&self) -> Ctl {
        Ctl::of(self.table())
    }

    pub fn joy(&self) -> Joy {
        Joy::of(self.table())
    }

    /// As the drive, spos and zero left it.
    pub fn position(&self) -> Position {
        self.0.memory.position
    }

    /// Bits 1 (command error), 2 (data error), 4 (value error).
    pub fn flags(&self) -> usize {
        self.0.memory.notes.flags
    }

    /// Block and field last refused, if any was; or a block and `RULE`.
    pub fn last_refused(&self) -> Option<(usize, usize)> {
        match (self.0.memory.notes.block, self.0.memory.notes.field) {
            (0, 0) => None,
            refused => Some(refused),
        }
    }

    /// The bytes of the unit that has not ended yet.
    pub fn unfinished(&self) -> &[u8] {
        &self.0.held[..self.0.count.min(FRAME)]
    }

    /// The stamp of the last byte taken.
    pub fn stamp(&self) -> u32 {
        self.0.stamp
    }

    /// For tests: what the board consists of.
    pub fn parts(&self) -> &Parts {
        &self.0
    }

    /// For tests: a board out of any parts, sound or not.
    pub fn from_parts(parts: Parts) -> Board {
        Board(parts)
    }
}

#[cfg(test)]
mod tests {
    use super::*;
    use crate::position::Count;
    use crate::second::crc;
    use std::mem::size_of;

    /// The sizes that c/rivertosku.h asserts. Shown by `cargo test sizes -- --nocapture`.
    #[test]
    fn sizes() {
        let sizes = [
            size_of::<Settings>(),
            size_of::<Notes>(),
            size_of::<Memory>(),
            size_of::<Parts>(),
            size_of::<Rest>(),
            size_of::<Answer>(),
            size_of::<Report>(),
        ];
        println!("settings notes memory board rest answer report: {sizes:?}");
        // The table and the held bytes fill whole words.
        let memory = TABLE.next_multiple_of(8) + 24 + 16;
        let board = memory + FRAME.next_multiple_of(8) + 16;
        assert_eq!((memory, board), (320, 432));
        assert_eq!(sizes, [TABLE, 24, memory, board, 56, 80, 8 + board]);
    }

    #[test]
    fn same_and_judged() {
        let mut board = Board::fresh();
        board.report_clock(7);
        assert_eq!(board.same(&Board::fresh()), Some(true));
        let _ = board.receive(b"spid", 1000, &mut [0; ROOM]);
        assert_eq!(board.judge(), Number::Accepted);
        let changed = |change: &dyn Fn(&mut Parts)| {
            let mut parts = *board.parts();
            change(&mut parts);
            Board::from_parts(parts)
        };
        // A spare byte plays no part; the bytes before it do.
        let spare = changed(&|parts| parts.held[4] = 1);
        assert!(spare != board && spare.same(&board) == Some(true));
        let others: [&dyn Fn(&mut Parts); 21] = [
            // mov's uAntiplaySpeed, eng's Antiplay, PowerFlags, eds's uRightBorder -1, HomeFlags, t4, and minus zero as Kdf
            &|parts| parts.memory.settings.bytes[13] = 1,
            &|parts| parts.memory.settings.bytes[35] = 1,
            &|parts| parts.memory.settings.bytes[59] = 1,
            &|parts| parts.memory.settings.bytes[78..80].fill(0xFF),
            &|parts| parts.memory.settings.bytes[103] = 1,
            &|parts| parts.memory.settings.bytes[120] = 0x80,
            &|parts| parts.memory.settings.bytes[149] = 0x80,
            // ctl's first speed, last part and uDeltaPosition -1, JoyFlags
            &|parts| parts.memory.settings.bytes[174] = 2,
            &|parts| parts.memory.settings.bytes[223] = 1,
            &|parts| parts.memory.settings.bytes[250..252].fill(0xFF),
            &|parts| parts.memory.settings.bytes[269] = 1,
            &|parts| parts.memory.notes.flags = 1,
            &|parts| parts.memory.notes.block = 1,
            &|parts| parts.memory.notes.field = 1 << 32,
            &|parts| parts.memory.position.steps = Steps(i32::MIN),
            &|parts| parts.memory.position.microsteps = Microsteps(-255),
            &|parts| parts.memory.position.count = Count(1 << 32),
            &|parts| parts.count = 5,
            &|parts| (parts.held[0], parts.count) = (b't', 3),
            &|parts| parts.stamp = 1000 + (1 << 31),
            &|parts| parts.count = 0,
        ];
        for change in others {
            let other = changed(change);
            let said = [other.same(&board), board.same(&other), other.same(&other)];
            assert_eq!(said, [Some(false), Some(false), Some(true)], "{other:?}");
        }
        // Another name that is no set's, flags over 7, microsteps past their range, counts past a unit and past the bytes held, a field
        // out of its range, the rules of ctl and of joy, the first reserved byte and the last: unsound, and so is the comparison.
        let unsound: [&dyn Fn(&mut Parts); 11] = [
            &|parts| parts.held[3] = b's',
            &|parts| parts.memory.notes.flags = 8,
            &|parts| parts.memory.position.microsteps = Microsteps(-256),
            &|parts| parts.memory.position.microsteps = Microsteps(256),
            &|parts| parts.count = FRAME,
            &|parts| parts.count = usize::MAX,
            &|parts| parts.memory.settings.bytes[52] = 101,
            &|parts| parts.memory.settings.bytes[174] = 0,
            &|parts| parts.memory.settings.bytes[261] = 1,
            &|parts| parts.memory.settings.bytes[14] = 1,
            &|parts| parts.memory.settings.bytes[276] = 0x80,
        ];
        for change in unsound {
            let other = changed(change);
            assert_eq!(other.judge(), Number::Unsound);
            assert_eq!([other.same(&board), board.same(&other), other.same(&other)], [None; 3], "{other:?}");
        }
    }

    /// What a set changes in the table, and what is left of the board over a restart.
    #[test]
    fn handed_out_and_taken_back() {
        let mut board = Board::fresh();
        let fresh = *board.table();
        let call = board.receive(b"sbrk\xFF\xFF\0\0\0\0\0\0\0\0\0\0\0\0\0\0\0\0\0\0\0righttt", 1000, &mut [0; ROOM]).taken;
        assert_eq!((call, board.flags(), board.unfinished()), (32, 1, &b"ttt"[..]));
        let mut table = fresh;
        table[113..115].fill(0xFF);
        assert_eq!((*board.table(), board.brk()), (table, Brk { t1: 65535, ..Brk::default() }));
        let mut out = [0xAA; TABLE + 1];
        assert_eq!((board.hand_out(&mut out[..TABLE - 1]), out), (TableNumber::OutTooSmall, [0xAA; TABLE + 1]));
        assert_eq!(board.hand_out(&mut out), TableNumber::Accepted);
        assert_eq!((&out[..TABLE], out[TABLE]), (&table[..], 0xAA));
        let (number, back) = Board::take_back(&out[..TABLE]);
        assert_eq!((number, back.table(), back.judge()), (TableNumber::Accepted, &table, Number::Accepted));
        assert_eq!((back.flags(), back.unfinished(), back.stamp()), (0, &b""[..], 0));
        for other in [&out[..], &out[..TABLE - 1], &[]] {
            assert_eq!(Board::take_back(other), (TableNumber::AnotherLength, Board::fresh()));
        }
        for (at, byte) in [(52, 101), (174, 0), (261, 1), (14, 1), (276, 0x80)] {
            let mut parts = *board.parts();
            parts.memory.settings.bytes[at] = byte;
            let unsound = Board::from_parts(parts);
            let mut out = [0xAA; TABLE];
            assert_eq!((unsound.hand_out(&mut out), out), (TableNumber::Unsound, [0xAA; TABLE]));
            assert_eq!(unsound.hand_out(&mut out[1..]), TableNumber::OutTooSmall);
            assert_eq!(Board::take_back(unsound.table()), (TableNumber::Unsound, Board::fresh()));
        }
        let unsound = Board::from_parts(Parts { count: FRAME, ..*board.parts() });
        assert_eq!(unsound.hand_out(&mut out), TableNumber::Unsound);
    }

    /// A frame of this data section, zeros behind its front.
    fn frame(name: &[u8], front: &[u8], zeros: usize) -> Vec<u8> {
        let data = [front, &vec![0; zeros]].concat();
        [name, &data, &crc(&data).to_le_bytes()].concat()
    }

    /// ctl refused by its rule, then taken, and sent in the least room.
    #[test]
    fn speeds() {
        let mut board = Board::fresh();
        let mut room = [0; ROOM];
        let first = |speed| Ctl { max_speed: [speed, 0, 0, 0, 0, 0, 0, 0, 0, 0], ..Ctl::default() };
        assert_eq!(board.ctl(), first(1));
        assert_eq!(board.receive(&frame(b"sctl", &[0, 0, 0, 0, 1], 82), 1000, &mut room).reply, b"errv");
        assert_eq!((board.last_refused(), board.flags(), board.ctl()), (Some((11, RULE)), 4, first(1)));
        assert_eq!(board.receive(&frame(b"sctl", &[0xFF, 0xFF], 85), 1000, &mut room).reply, b"sctl");
        assert_eq!(board.ctl(), first(65535));
        let call = board.receive(b"gctlgctl", 1000, &mut room);
        assert_eq!((call.reply, call.rest), (&frame(b"gctl", &[0xFF, 0xFF], 85)[..], &b"l"[..]));
        assert_eq!(board.receive(b"l", 1000, &mut room).reply.len(), ROOM);
        // The part alone keeps the rule; of two that are broken the range comes first.
        for (part, flags, refused) in [(255, 0, (11, RULE)), (0, 0, (11, RULE)), (0, 0x10, (11, 31))] {
            let mut data = [0; 87];
            (data[40], data[70]) = (part, flags);
            let _ = board.receive(&frame(b"sctl", &data, 0), 1000, &mut room);
            assert_eq!((board.last_refused(), board.ctl().u_max_speed[0]), (Some(refused), 255));
        }
    }

    /// joy refused by a range and by its rule, then taken.
    #[test]
    fn joystick() {
        let mut board = Board::fresh();
        let mut room = [0; ROOM];
        for (low, refused) in [([0xFF, 0xFF], (12, 1)), ([1, 0], (12, RULE))] {
            assert_eq!(board.receive(&frame(b"sjoy", &low, 14), 1000, &mut room).reply, b"errv");
            assert_eq!((board.last_refused(), board.joy()), (Some(refused), Joy::default()));
        }
        let front = [0xE8, 0x03, 0x88, 0x13, 0x28, 0x23, 0xFF, 0xFE, 0x01];
        assert_eq!(board.receive(&frame(b"sjoy", &front, 7), 1000, &mut room).reply, b"sjoy");
        let joy = Joy { joy_low_end: 1000, joy_center: 5000, joy_high_end: 9000, exp_factor: 255, dead_zone: 254, joy_flags: 1 };
        assert_eq!(board.joy(), joy);
        assert_eq!(board.receive(b"gjoy", 1000, &mut room).reply, frame(b"gjoy", &front, 7));
    }

    /// A null pointer is fine where the length is 0.
    #[test]
    fn null_with_length_0() {
        let (mut room, fresh) = ([0; ROOM], *Board::fresh().parts());
        for (reply, reply_len, number) in [(room.as_mut_ptr(), ROOM, 0), (std::ptr::null_mut(), 0, 2)] {
            let mut board = fresh;
            // SAFETY: as `receive` wants it; the pointers are under test.
            let answer = unsafe { board.receive(std::ptr::null(), 0, 9, reply, reply_len) };
            assert_eq!((answer.number, board), (number, fresh));
        }
        // SAFETY: as in `hand_out` and `take_back`, but for the pointer under test.
        let (number, report) = unsafe { (rivertosku_hand_out(fresh, std::ptr::null_mut(), 0), rivertosku_take_back(std::ptr::null(), 0)) };
        assert_eq!((number, report.number, report.board), (2, 1, fresh));
    }

    #[test]
    fn order_and_rest() {
        let mut board = Board::fresh();
        let mut room = [0; ROOM];
        let call = board.receive(b"stopxxxx\0le", 1000, &mut room);
        assert_eq!((call.number, call.order, call.reply), (Number::Accepted, Some(Order::Stop), &b"stop"[..]));
        let call = board.receive(call.rest, 1000, &mut room);
        assert_eq!((call.order, call.reply, call.rest), (None, &b"errc\0"[..], &b""[..]));
        assert_eq!((board.flags(), board.unfinished(), board.stamp()), (1, &b"le"[..], 1000));
        assert_eq!(board.last_refused(), None);
    }

    /// 004's worked movr, 200 steps, with the CRC that it has there and with the right one; then a move with bytes behind it.
    #[test]
    fn travels() {
        let mut board = Board::fresh();
        let mut room = [0; ROOM];
        let mut frame = *b"movr\xC8\0\0\0\0\0\0\0\0\0\0\0\x53\xC7";
        let call = board.receive(&frame, 1000, &mut room);
        assert_eq!((call.order, call.reply), (None, &b"errd"[..]));
        frame[16..].copy_from_slice(&[0x86, 0x9C]);
        let call = board.receive(&frame, 1000, &mut room);
        assert_eq!((call.order, call.reply), (Some(Order::Movr(Travel { steps: Steps(200), ..Travel::default() })), &b"movr"[..]));
        // -2147483648 steps, -255 microsteps.
        let piece = *b"move\0\0\0\x80\x01\xFF\0\0\0\0\0\0\xCB\x07zero";
        let call = board.receive(&piece, 1000, &mut room);
        let travel = Travel { steps: Steps(i32::MIN), microsteps: Microsteps(-255) };
        assert_eq!((call.order, call.reply, call.rest), (Some(Order::Move(travel)), &b"move"[..], &b"zero"[..]));
        let call = board.receive(call.rest, 1000, &mut room);
        assert_eq!((call.order, call.reply, board.position()), (None, &b"zero"[..], Position::default()));
    }

    /// A report inside gpos, which sends what is reported last, and reports that are refused.
    #[test]
    fn positions() {
        let at = |steps, microsteps, count| Position { steps: Steps(steps), microsteps: Microsteps(microsteps), count: Count(count) };
        let mut board = Board::fresh();
        let mut room = [0; ROOM];
        assert_eq!(board.position(), at(0, 0, 0));
        let _ = board.receive(b"gp", 1000, &mut room);
        assert_eq!(board.report_position(at(1, 255, 2)), Number::Accepted);
        assert_eq!(board.report_position(at(-2, -255, i64::MIN)), Number::Accepted);
        let before = board.clone();
        for microsteps in [-256, 256, i16::MIN, i16::MAX] {
            assert_eq!((board.report_position(at(0, microsteps, 0)), &board), (Number::MicrostepsOutOfRange, &before));
        }
        assert_eq!((board.unfinished(), board.stamp(), board.position()), (&b"gp"[..], 1000, at(-2, -255, i64::MIN)));
        let call = board.receive(b"oszero", 1400, &mut room);
        assert_eq!(call.reply[..18], *b"gpos\xFE\xFF\xFF\xFF\x01\xFF\0\0\0\0\0\0\0\x80");
        assert_eq!((call.reply[18..24].to_vec(), call.reply[26..].to_vec(), call.rest), (vec![0; 6], b"zero".to_vec(), &b""[..]));
        assert_eq!(board.position(), at(0, 0, i64::MIN));
        let unsound = Board::from_parts(Parts { count: FRAME + 1, ..*board.parts() });
        for microsteps in [0, 256] {
            let mut board = unsound.clone();
            assert_eq!((board.report_position(at(1, microsteps, 0)), board), (Number::Unsound, unsound.clone()));
        }
    }

    /// Half a command, reports of the time, and the rest after 2^32 + 100 ms, which its stamp shows as 100.
    #[test]
    fn standstill() {
        let cases: [(u32, &[u32], bool); 8] = [
            (1000, &[], true),
            (1000, &[1400], true),
            (1000, &[1401], false),
            // A report does not restart the wait.
            (1000, &[1300, 1401], false),
            // The last moment, and one too late.
            (1000, &[999], false),
            (1000, &[1000], true),
            // The counter passes its end between byte and report.
            (4294967200, &[304], true),
            (4294967200, &[305], false),
        ];
        for (stamp, reports, completed) in cases {
            let mut board = Board::fresh();
            let mut room = [0; ROOM];
            assert_eq!(board.receive(b"le", stamp, &mut room).taken, 2);
            for &now in reports {
                assert_eq!(board.report_clock(now), Number::Accepted);
            }
            let half = if completed { &b"le"[..] } else { b"" };
            assert_eq!((board.unfinished(), board.stamp(), board.flags()), (half, stamp, 0));
            assert_eq!(board.receive(b"ft", stamp.wrapping_add(100), &mut room).order, completed.then_some(Order::Left));
        }
        let unsound = Board::from_parts(Parts { count: FRAME + 1, ..*Board::fresh().parts() });
        let mut board = unsound.clone();
        assert_eq!((board.report_clock(401), board), (Number::Unsound, unsound));
    }
}
