//! Where the library meets the second receiver and host: the library's records and the second's bytes, each turned into the other, and
//! what differs.

use crate::blocks::{Brk, Ctl, Eds, Eng, Hom, Joy, Mov, Pid, Pwr};
use crate::board::{Board, Parts, TableNumber, FRAME, TABLE};
use crate::fault::Fault;
use crate::host::{self, Answer, Block, Blocks, Fields, Order, ReadRefusal, Request, WriteRefusal};
use crate::position::{Position, Travel};
use crate::second::Second;
use crate::second_flash;
use crate::second_host;
use crate::table::{self, place, BLOCKS, HOST_FRAME, POSITION, TRAVEL};
use std::fmt::Debug;

// The rows of the second ones are to have the library's longest frames, and as many bytes of settings.
const _: () = assert!(FRAME == table::FRAME && TABLE == table::TABLE && host::FRAME == HOST_FRAME);

/// A field on the wire, low byte first; or an array of them, one behind the other.
trait Field {
    /// Takes the field off the front of the bytes.
    fn read(&mut self, bytes: &mut &[u8]);
}

macro_rules! fields {
    ($($number:ty)*) => {
        $(impl Field for $number {
            fn read(&mut self, bytes: &mut &[u8]) {
                let (front, rest) = bytes.split_first_chunk().expect("a whole data section");
                *self = <$number>::from_le_bytes(*front);
                *bytes = rest;
            }
        })*
    };
}

fields! { u8 u16 u32 i16 i32 f32 }

impl<T: Field, const N: usize> Field for [T; N] {
    fn read(&mut self, bytes: &mut &[u8]) {
        self.iter_mut().for_each(|field| field.read(bytes));
    }
}

/// A block's record.
trait Record: Default + PartialEq + Debug {
    /// Its fields in numbered order.
    fn fields(&mut self) -> Vec<&mut dyn Field>;

    /// The record of a data section, in range or not.
    fn of_section(mut data: &[u8]) -> Self {
        let mut record = Self::default();
        for field in record.fields() {
            field.read(&mut data);
        }
        record
    }
}

macro_rules! records {
    ($($block:ident: $($field:ident)*;)*) => {
        $(impl Record for $block {
            fn fields(&mut self) -> Vec<&mut dyn Field> {
                vec![$(&mut self.$field),*]
            }
        })*
    };
}

records! {
    Mov: speed u_speed accel decel antiplay_speed u_antiplay_speed;
    Eng: nom_voltage nom_current nom_speed u_nom_speed engine_flags antiplay microstep_mode steps_per_rev;
    Pwr: hold_current curr_reduct_delay power_off_delay current_set_time power_flags;
    Eds: border_flags ender_flags left_border u_left_border right_border u_right_border;
    Hom: fast_home u_fast_home slow_home u_slow_home home_delta u_home_delta home_flags;
    Brk: t1 t2 t3 t4 brake_flags;
    Pid: kp_u ki_u kd_u kpf kif kdf;
    Ctl: max_speed u_max_speed timeout max_click_time flags delta_position u_delta_position;
    Joy: joy_low_end joy_center joy_high_end exp_factor dead_zone joy_flags;
}

/// The board's settings as the host's blocks.
pub fn blocks_of(board: &Board) -> Blocks {
    Blocks { mov: board.mov(), eng: board.eng(), pwr: board.pwr(), eds: board.eds(), hom: board.hom(), brk: board.brk(), pid: board.pid() }
}

/// These numbers one behind the other.
fn joined<const N: usize>(numbers: &[&[u8]]) -> [u8; N] {
    numbers.concat().try_into().expect("as many bytes as the numbers have")
}

pub fn travel_bytes(travel: Travel) -> [u8; TRAVEL] {
    joined(&[&travel.steps.0.to_le_bytes(), &travel.microsteps.0.to_le_bytes()])
}

pub fn position_bytes(position: Position) -> [u8; POSITION] {
    joined(&[&position.steps.0.to_le_bytes(), &position.microsteps.0.to_le_bytes(), &position.count.0.to_le_bytes()])
}

/// Puts a data section into a board's table, in range or not, reserved bytes zero or not.
pub fn put_data(parts: &mut Parts, block: usize, data: &[u8]) {
    parts.memory.settings.bytes[place(block)].copy_from_slice(data);
}

/// The second receiver in a board's state.
pub fn second_of(parts: &Parts) -> Second {
    let notes = parts.memory.notes;
    let position = position_bytes(parts.memory.position);
    Second {
        table: parts.memory.settings.bytes,
        position,
        last_set: position,
        flags: notes.flags,
        refused: (notes.block, notes.field),
        unit: parts.held,
        len: parts.count,
        stamp: parts.stamp,
    }
}

/// In what the two states differ, if they do. Bytes behind the unfinished ones are no part of a state.
pub fn difference(board: &Board, second: &Second) -> Option<String> {
    let parts = board.parts();
    for block in BLOCKS {
        let (a, b) = (&board.table()[place(block)], &second.table[place(block)]);
        if a != b {
            return Some(format!("block {block}: library {a:02x?}, second {b:02x?}"));
        }
    }
    let position = position_bytes(board.position());
    if position != second.position {
        return Some(format!("position: library {position:02x?}, second {:02x?}", second.position));
    }
    if board.flags() != second.flags {
        return Some(format!("flags: library {}, second {}", board.flags(), second.flags));
    }
    let refused = (parts.memory.notes.block, parts.memory.notes.field);
    if refused != second.refused {
        return Some(format!("last refused: library {refused:?}, second {:?}", second.refused));
    }
    let unfinished = &second.unit[..second.len.min(FRAME)];
    if parts.count != second.len || board.unfinished() != unfinished {
        return Some(format!("unfinished: library {} {:02x?}, second {} {unfinished:02x?}", parts.count, board.unfinished(), second.len));
    }
    if board.stamp() != second.stamp {
        return Some(format!("stamp: library {}, second {}", board.stamp(), second.stamp));
    }
    None
}

fn block_numbered(number: usize) -> Block {
    Block::numbered(number as u8).expect("seven blocks")
}

fn order_numbered(number: usize) -> Order {
    Order::numbered(number as u8).expect("seven orders")
}

/// The fields of one of the host's blocks that a data section holds.
fn fields_in(number: usize, data: &[u8]) -> Fields {
    match block_numbered(number) {
        Block::Mov => Fields::Mov(Mov::of_section(data)),
        Block::Eng => Fields::Eng(Eng::of_section(data)),
        Block::Pwr => Fields::Pwr(Pwr::of_section(data)),
        Block::Eds => Fields::Eds(Eds::of_section(data)),
        Block::Hom => Fields::Hom(Hom::of_section(data)),
        Block::Brk => Fields::Brk(Brk::of_section(data)),
        Block::Pid => Fields::Pid(Pid::of_section(data)),
    }
}

/// One NaN for all, since the machine bits of a NaN are not promised.
fn one_nan(mut pid: Pid) -> Pid {
    for gain in [&mut pid.kpf, &mut pid.kif, &mut pid.kdf] {
        if gain.is_nan() {
            *gain = f32::NAN;
        }
    }
    pid
}

/// The same in an answer.
fn one_nan_read(answer: Answer) -> Answer {
    match answer {
        Answer::Data(Fields::Pid(pid)) => Answer::Data(Fields::Pid(one_nan(pid))),
        _ => answer,
    }
}

/// The second host's request as the library takes it.
fn request_of(request: &second_host::Request) -> Request {
    match request {
        second_host::Request::Get(number) => Request::Get(block_numbered(*number)),
        second_host::Request::Set(number, data) => Request::Set(fields_in(*number, data)),
        second_host::Request::Order(number) => Request::Order(order_numbered(*number)),
    }
}

/// The second host's answer as the library gives it.
fn answer_of(answer: &second_host::Answer) -> Answer {
    match answer {
        second_host::Answer::Zero => Answer::Zero,
        second_host::Answer::SetEcho(number) => Answer::SetEcho(block_numbered(*number)),
        second_host::Answer::OrderEcho(number) => Answer::OrderEcho(order_numbered(*number)),
        second_host::Answer::Data(number, data) => Answer::Data(fields_in(*number, data)),
        second_host::Answer::Errc => Answer::Errc,
        second_host::Answer::Errd => Answer::Errd,
        second_host::Answer::Errv => Answer::Errv,
    }
}

/// Two buffers of the same bytes, which differ from place to place and are not zero.
pub fn buffers<const N: usize>(salt: usize) -> ([u8; N], [u8; N]) {
    let filled = std::array::from_fn(|i| (i as u8).wrapping_mul(31).wrapping_add(salt as u8) | 1);
    (filled, filled)
}

/// Both hosts write a request into this much room: the frame or the refusal, or in what they differ.
pub fn write(request: &second_host::Request, room: usize, fault: Fault, salt: usize) -> Result<Result<Vec<u8>, WriteRefusal>, String> {
    // The buffer goes on behind the room, to see that nothing is written there.
    let (mut ours, mut theirs) = buffers::<{ HOST_FRAME + 32 }>(salt);
    let a = host::write(&request_of(request), &mut ours[..room]);
    let b = second_host::write(fault, request, &mut theirs[..room]);
    if a.map_err(|refusal| refusal as u8) != b {
        return Err(format!("{request:02x?} into {room} bytes, length or refusal: library {a:?}, second {b:?}"));
    }
    if ours != theirs {
        return Err(format!("{request:02x?} into {room} bytes, buffer: library {ours:02x?}, second {theirs:02x?}"));
    }
    Ok(a.map(|length| ours[..length].to_vec()))
}

/// Both hosts read the front of the bytes: the answer and its length or the refusal, or in what they differ.
pub fn read(bytes: &[u8], fault: Fault) -> Result<Result<(Answer, usize), ReadRefusal>, String> {
    let ours = host::read(bytes);
    let theirs = second_host::read(fault, bytes);
    let a = ours.map(|(answer, length)| (one_nan_read(answer), length)).map_err(|refusal| refusal as u8);
    let b = theirs.map(|(answer, length)| (one_nan_read(answer_of(&answer)), length));
    if a != b {
        return Err(format!("{bytes:02x?}, answer and length or refusal: library {a:?}, second {b:?}"));
    }
    Ok(ours)
}

/// Both hand out their table into this much room: the table or the refusal, or in what they differ.
pub fn hand_out(board: &Board, second: &Second, room: usize, fault: Fault, salt: usize) -> Result<Result<Vec<u8>, TableNumber>, String> {
    // The buffer goes on behind the room, to see that nothing is written there.
    let (mut ours, mut theirs) = buffers::<{ 2 * TABLE }>(salt);
    let a = board.hand_out(&mut ours[..room]);
    let b = second.hand_out(fault, &mut theirs[..room]);
    if a as u8 != b {
        return Err(format!("handed out into {room} bytes, number: library {a:?}, second {b}"));
    }
    if ours != theirs {
        return Err(format!("handed out into {room} bytes, buffer: library {ours:02x?}, second {theirs:02x?}"));
    }
    Ok(if a == TableNumber::Accepted { Ok(ours[..TABLE].to_vec()) } else { Err(a) })
}

/// Both take a stored table back: the number and both boards, or in what they differ.
pub fn take_back(bytes: &[u8], fault: Fault) -> Result<(TableNumber, Board, Second), String> {
    let (number, board) = Board::take_back(bytes);
    let (b, second) = Second::take_back(fault, bytes);
    if number as u8 != b {
        return Err(format!("taken back {bytes:02x?}, number: library {number:?}, second {b}"));
    }
    if let Some(text) = difference(&board, &second) {
        return Err(format!("taken back {bytes:02x?}, {text}"));
    }
    // The library's record besides: the very same as a fresh one, but for the table if it is accepted.
    let mut expected = *Board::fresh().parts();
    if number == TableNumber::Accepted {
        expected.memory.settings.bytes.copy_from_slice(bytes);
    }
    if *board.parts() != expected {
        return Err(format!("taken back {bytes:02x?}, the record: {:?}, not {expected:?}", board.parts()));
    }
    Ok((number, board, second))
}

/// In what the library's record differs from the second's, if it does.
fn apart<R: Record>(ours: R, theirs: R) -> Option<String> {
    (ours != theirs).then(|| format!("library {ours:?}, second {theirs:?}"))
}

/// Both look at each block of a table, whole or not: in what they differ.
pub fn view(table: &[u8], fault: Fault) -> Result<(), String> {
    for number in BLOCKS {
        let section = &second_flash::view(fault, table, number)[..];
        let said = match number {
            1 => apart(Mov::of(table), Mov::of_section(section)),
            2 => apart(Eng::of(table), Eng::of_section(section)),
            3 => apart(Pwr::of(table), Pwr::of_section(section)),
            4 => apart(Eds::of(table), Eds::of_section(section)),
            5 => apart(Hom::of(table), Hom::of_section(section)),
            6 => apart(Brk::of(table), Brk::of_section(section)),
            7 => apart(one_nan(Pid::of(table)), one_nan(Pid::of_section(section))),
            11 => apart(Ctl::of(table), Ctl::of_section(section)),
            12 => apart(Joy::of(table), Joy::of_section(section)),
            _ => unreachable!("nine blocks"),
        };
        if let Some(text) = said {
            return Err(format!("block {number} of {table:02x?}: {text}"));
        }
    }
    Ok(())
}
