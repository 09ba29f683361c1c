//! The optimiser's end of the link, liboptimiser.a, behind safe types: a request is written as its frame, the board's answers are read.

use crate::blocks::{Brk, Eds, Eng, Hom, Mov, Pid, Pwr};

/// The longest frame of a request, which is also the longest answer that is read.
pub const FRAME: usize = 48;

#[derive(Clone, Copy, PartialEq, Eq, Debug)]
pub enum Block {
    Mov = 1,
    Eng = 2,
    Pwr = 3,
    Eds = 4,
    Hom = 5,
    Brk = 6,
    Pid = 7,
}

impl Block {
    /// The block that has this number of 01, if one has.
    pub fn numbered(number: u8) -> Option<Block> {
        Some(match number {
            1 => Block::Mov,
            2 => Block::Eng,
            3 => Block::Pwr,
            4 => Block::Eds,
            5 => Block::Hom,
            6 => Block::Brk,
            7 => Block::Pid,
            _ => return None,
        })
    }
}

/// The orders of 01: "later commands stay outside" of the host.
#[derive(Clone, Copy, PartialEq, Eq, Debug)]
pub enum Order {
    Stop = 1,
    Sstp = 2,
    Pwof = 3,
    Left = 4,
    Rigt = 5,
    Home = 6,
    Loft = 7,
}

impl Order {
    /// The order that has this number of 01, if one has.
    pub fn numbered(number: u8) -> Option<Order> {
        Some(match number {
            1 => Order::Stop,
            2 => Order::Sstp,
            3 => Order::Pwof,
            4 => Order::Left,
            5 => Order::Rigt,
            6 => Order::Home,
            7 => Order::Loft,
            _ => return None,
        })
    }
}

/// The blocks as a request or an answer brings them.
#[repr(C)]
#[derive(Clone, Copy, Default, PartialEq, Debug)]
pub struct Blocks {
    pub mov: Mov,
    pub eng: Eng,
    pub pwr: Pwr,
    pub eds: Eds,
    pub hom: Hom,
    pub brk: Brk,
    pub pid: Pid,
}

/// The fields of one block, in range or not.
#[derive(Clone, Copy, PartialEq, Debug)]
pub enum Fields {
    Mov(Mov),
    Eng(Eng),
    Pwr(Pwr),
    Eds(Eds),
    Hom(Hom),
    Brk(Brk),
    Pid(Pid),
}

impl Fields {
    /// A block's fields out of all blocks.
    pub fn of(blocks: &Blocks, block: Block) -> Fields {
        match block {
            Block::Mov => Fields::Mov(blocks.mov),
            Block::Eng => Fields::Eng(blocks.eng),
            Block::Pwr => Fields::Pwr(blocks.pwr),
            Block::Eds => Fields::Eds(blocks.eds),
            Block::Hom => Fields::Hom(blocks.hom),
            Block::Brk => Fields::Brk(blocks.brk),
            Block::Pid => Fields::Pid(blocks.pid),
        }
    }

    pub fn block(&self) -> Block {
        match self {
            Fields::Mov(_) => Block::Mov,
            Fields::Eng(_) => Block::Eng,
            Fields::Pwr(_) => Block::Pwr,
            Fields::Eds(_) => Block::Eds,
            Fields::Hom(_) => Block::Hom,
            Fields::Brk(_) => Block::Brk,
            Fields::Pid(_) => Block::Pid,
        }
    }

    /// These fields in their block; the writer looks at no other.
    fn blocks(&self) -> Blocks {
        let zeros = Blocks::default();
        match *self {
            Fields::Mov(mov) => Blocks { mov, ..zeros },
            Fields::Eng(eng) => Blocks { eng, ..zeros },
            Fields::Pwr(pwr) => Blocks { pwr, ..zeros },
            Fields::Eds(eds) => Blocks { eds, ..zeros },
            Fields::Hom(hom) => Blocks { hom, ..zeros },
            Fields::Brk(brk) => Blocks { brk, ..zeros },
            Fields::Pid(pid) => Blocks { pid, ..zeros },
        }
    }
}

#[derive(Clone, Copy, PartialEq, Debug)]
pub enum Request {
    Get(Block),
    Set(Fields),
    Order(Order),
}

/// 02's number of a request that is not written.
#[derive(Clone, Copy, PartialEq, Eq, Debug)]
pub enum WriteRefusal {
    /// A value that the board would refuse.
    OutOfRange = 3,
    /// A buffer shorter than the frame.
    TooShort = 4,
}

#[derive(Clone, Copy, PartialEq, Debug)]
pub enum Answer {
    Zero,
    SetEcho(Block),
    OrderEcho(Order),
    /// In range or not. A gain that is no number comes as some NaN.
    Data(Fields),
    Errc,
    Errd,
    Errv,
}

/// 02's number of bytes that are no answer.
#[derive(Clone, Copy, PartialEq, Eq, Debug)]
pub enum ReadRefusal {
    /// Fewer bytes than a name needs.
    NoName = 5,
    /// A name that no answer has.
    NoAnswer = 6,
    /// Fewer bytes than that answer needs.
    Cut = 7,
    /// A wrong CRC.
    Damaged = 8,
}

#[repr(C)]
struct FlatWritten {
    number: u8,
    length: usize,
}

#[repr(C)]
struct FlatAnswer {
    number: u8,
    kind: u8,
    what: u8,
    length: usize,
    blocks: Blocks,
}

extern "C" {
    // A library whose structs are laid out in another way has another number in these names, and does not link.
    #[link_name = "rivertosku_write_get_1"]
    fn rivertosku_write_get(block: u8, out: *mut u8, out_len: usize) -> FlatWritten;
    #[link_name = "rivertosku_write_set_1"]
    fn rivertosku_write_set(block: u8, blocks: Blocks, out: *mut u8, out_len: usize) -> FlatWritten;
    #[link_name = "rivertosku_write_order_1"]
    fn rivertosku_write_order(order: u8, out: *mut u8, out_len: usize) -> FlatWritten;
    #[link_name = "rivertosku_read_1"]
    fn rivertosku_read(bytes: *const u8, bytes_len: usize) -> FlatAnswer;
}

/// Writes a request's frame to the front of a buffer and gives its length. A refusal writes nothing; bytes past the frame are kept.
pub fn write(request: &Request, out: &mut [u8]) -> Result<usize, WriteRefusal> {
    let (to, room) = (out.as_mut_ptr(), out.len());
    // SAFETY: the buffer is live and of this length, and the library does not keep it; any number and any blocks are allowed.
    let written = unsafe {
        match request {
            Request::Get(block) => rivertosku_write_get(*block as u8, to, room),
            Request::Set(fields) => rivertosku_write_set(fields.block() as u8, fields.blocks(), to, room),
            Request::Order(order) => rivertosku_write_order(*order as u8, to, room),
        }
    };
    match written.number {
        0 => Ok(written.length),
        3 => Err(WriteRefusal::OutOfRange),
        4 => Err(WriteRefusal::TooShort),
        n => panic!("the library answered number {n}"),
    }
}

/// Reads one answer from the front of what the board sent and gives it with its length.
pub fn read(bytes: &[u8]) -> Result<(Answer, usize), ReadRefusal> {
    // SAFETY: the bytes are live and of this length; the library does not keep them.
    let read = unsafe { rivertosku_read(bytes.as_ptr(), bytes.len()) };
    match read.number {
        0 => Ok((answer(&read), read.length)),
        5 => Err(ReadRefusal::NoName),
        6 => Err(ReadRefusal::NoAnswer),
        7 => Err(ReadRefusal::Cut),
        8 => Err(ReadRefusal::Damaged),
        n => panic!("the library answered number {n}"),
    }
}

fn answer(read: &FlatAnswer) -> Answer {
    let block = || Block::numbered(read.what).unwrap_or_else(|| panic!("the library answered block {}", read.what));
    let order = || Order::numbered(read.what).unwrap_or_else(|| panic!("the library answered order {}", read.what));
    match read.kind {
        1 => Answer::Zero,
        2 => Answer::SetEcho(block()),
        3 => Answer::OrderEcho(order()),
        4 => Answer::Data(Fields::of(&read.blocks, block())),
        5 => Answer::Errc,
        6 => Answer::Errd,
        7 => Answer::Errv,
        n => panic!("the library answered kind {n}"),
    }
}

#[cfg(test)]
mod tests {
    use super::*;
    use crate::board::{Board, ROOM};
    use crate::same;
    use std::mem::size_of;

    /// The sizes that c/rivertosku.h asserts.
    #[test]
    fn sizes() {
        assert_eq!([size_of::<Blocks>(), size_of::<FlatWritten>(), size_of::<FlatAnswer>()], [128, 16, 144]);
    }

    fn brake(t1: u16) -> Fields {
        Fields::Brk(Brk { t1, ..Brk::default() })
    }

    /// 01's frame of brk with t1 65535, behind the letter of a set or a get.
    fn brake_frame(letter: u8) -> Vec<u8> {
        [&[letter], &b"brk\xFF\xFF"[..], &[0; 19]].concat()
    }

    #[test]
    fn frames() {
        let cases = [
            (Request::Set(brake(65535)), brake_frame(b's')),
            (Request::Get(Block::Hom), b"ghom".to_vec()),
            (Request::Order(Order::Rigt), b"rigt".to_vec()),
        ];
        for (request, frame) in cases {
            let mut out = [0xAA; FRAME];
            assert_eq!(write(&request, &mut out), Ok(frame.len()));
            assert_eq!((&out[..frame.len()], &out[frame.len()..]), (&frame[..], &[0xAA; FRAME][frame.len()..]));
            assert_eq!(write(&request, &mut out[..frame.len()]), Ok(frame.len()));
            assert_eq!(write(&request, &mut out[..frame.len() - 1]), Err(WriteRefusal::TooShort));
        }
    }

    #[test]
    fn range_is_judged_before_the_buffer() {
        let slow = Fields::Mov(Mov { accel: 0, decel: 1, ..Mov::default() });
        for room in [0, 29, 30, FRAME] {
            let mut out = [0xAA; FRAME];
            assert_eq!(write(&Request::Set(slow), &mut out[..room]), Err(WriteRefusal::OutOfRange));
            assert_eq!(out, [0xAA; FRAME]);
        }
    }

    /// What the safe types cannot ask: 9, nothing written, and 0 as the length of any refusal.
    #[test]
    fn numbers_of_nobody() {
        let mut out = [0xAA; FRAME];
        let (to, room) = (out.as_mut_ptr(), out.len());
        for number in [0, 8, 11, 12, 255] {
            // SAFETY: as in `write`.
            let flat = unsafe {
                [
                    rivertosku_write_get(number, to, room),
                    rivertosku_write_set(number, Blocks::default(), to, room),
                    rivertosku_write_order(number, to, room),
                ]
            };
            assert!(flat.iter().all(|written| (written.number, written.length) == (9, 0)));
        }
        // SAFETY: as in `write`.
        let flat = unsafe { [rivertosku_write_set(1, Blocks::default(), to, room), rivertosku_write_get(1, to, 3)] };
        assert_eq!(flat.map(|written| (written.number, written.length)), [(3, 0), (4, 0)]);
        assert_eq!(out, [0xAA; FRAME]);
        // 9 stands before 3 and 4, and a null pointer is fine where the length is 0.
        let none = std::ptr::null_mut();
        // SAFETY: as in `write`, but for the pointer under test.
        let flat = unsafe {
            [
                rivertosku_write_set(0, Blocks::default(), none, 0),
                rivertosku_write_get(8, none, 0),
                rivertosku_write_order(8, none, 0),
                rivertosku_write_set(1, Blocks::default(), none, 0),
                rivertosku_write_get(1, none, 0),
            ]
        };
        assert_eq!(flat.map(|written| written.number), [9, 9, 9, 3, 4]);
        // SAFETY: as above.
        assert_eq!(unsafe { rivertosku_read(none, 0) }.number, 5);
    }

    /// All blocks but the one read are fresh, and all of them in a refusal.
    #[test]
    fn other_blocks_are_fresh() {
        let fresh = same::blocks_of(&Board::fresh());
        let data = brake_frame(b'g');
        let cases: [(&[u8], _, Blocks); 6] = [
            (&data, (0, 4, 6, 25), Blocks { brk: Brk { t1: 65535, ..Brk::default() }, ..fresh }),
            (b"loft", (0, 3, 7, 4), fresh),
            (b"err", (5, 0, 0, 0), fresh),
            (b"errx", (6, 0, 0, 0), fresh),
            (&data[..24], (7, 0, 0, 0), fresh),
            (&[&data[..24], &[1]].concat(), (8, 0, 0, 0), fresh),
        ];
        for (bytes, numbers, blocks) in cases {
            // SAFETY: as in `read`.
            let flat = unsafe { rivertosku_read(bytes.as_ptr(), bytes.len()) };
            assert_eq!((flat.number, flat.kind, flat.what, flat.length), numbers);
            assert_eq!(flat.blocks, blocks);
        }
    }

    #[test]
    fn answers() {
        let cases: [(&[u8], _); 13] = [
            (b"\0", Ok((Answer::Zero, 1))),
            (b"\0mov", Ok((Answer::Zero, 1))),
            (b"smovs", Ok((Answer::SetEcho(Block::Mov), 4))),
            (b"sstp", Ok((Answer::OrderEcho(Order::Sstp), 4))),
            (b"errcerrd", Ok((Answer::Errc, 4))),
            (b"errd", Ok((Answer::Errd, 4))),
            (b"errv", Ok((Answer::Errv, 4))),
            (b"", Err(ReadRefusal::NoName)),
            (b"gmo\0", Err(ReadRefusal::NoAnswer)),
            (b"move", Err(ReadRefusal::NoAnswer)),
            (b"zero", Err(ReadRefusal::NoAnswer)),
            (b"sctl", Err(ReadRefusal::NoAnswer)),
            (b"gjoy", Err(ReadRefusal::NoAnswer)),
        ];
        for (bytes, said) in cases {
            assert_eq!(read(bytes), said);
        }
    }

    /// The reader judges no range: FF FF and zeros have the CRC 0 (01), and a gain may be anything.
    #[test]
    fn data_out_of_range() {
        let front = |name: &[u8], zeros| [name, &[0xFF, 0xFF], &vec![0; zeros]].concat();
        let Ok((Answer::Data(Fields::Mov(mov)), 30)) = read(&front(b"gmov", 24)) else { panic!("data of mov") };
        assert_eq!((mov.speed, mov.accel), (65535, 0));
        let mut section = [0; 42];
        section[6..10].copy_from_slice(&0x7F80_0001_u32.to_le_bytes());
        section[10..14].copy_from_slice(&0xFF80_0000_u32.to_le_bytes());
        section[14..18].copy_from_slice(&0x8000_0000_u32.to_le_bytes());
        let sum = crate::second::crc(&section).to_le_bytes();
        let Ok((Answer::Data(Fields::Pid(pid)), 48)) = read(&[b"gpid", &section[..], &sum].concat()) else { panic!("data of pid") };
        assert!(pid.kpf.is_nan());
        assert_eq!((pid.kif, pid.kdf.to_bits()), (f32::NEG_INFINITY, 0x8000_0000));
    }

    /// Offers a request's frame whole to a board; the board's answer.
    fn ask(board: &mut Board, request: Request) -> Answer {
        let (mut frame, mut room) = ([0; FRAME], [0; ROOM]);
        let length = write(&request, &mut frame).expect("a request in range");
        let call = board.receive(&frame[..length], 0, &mut room);
        assert_eq!(call.rest, b"");
        let (answer, length) = read(call.reply).expect("an answer");
        assert_eq!(length, call.reply.len());
        answer
    }

    #[test]
    fn a_get_gives_back_what_was_set() {
        let mut board = Board::fresh();
        let sets = [
            Fields::Mov(Mov { speed: 100_000, u_speed: 255, accel: 1, decel: 65535, antiplay_speed: 7, u_antiplay_speed: 8 }),
            Fields::Eng(Eng {
                nom_current: 8000,
                nom_speed: 1,
                engine_flags: 0xFF,
                antiplay: -2,
                microstep_mode: 9,
                steps_per_rev: 200,
                ..Eng::default()
            }),
            Fields::Pwr(Pwr { hold_current: 100, current_set_time: 300, power_flags: 0x07, ..Pwr::default() }),
            Fields::Eds(Eds {
                border_flags: 0x0F,
                ender_flags: 0x07,
                left_border: i32::MIN,
                u_left_border: -255,
                u_right_border: 255,
                ..Eds::default()
            }),
            Fields::Hom(Hom { slow_home: 100_000, home_delta: -1, u_home_delta: -255, home_flags: 0x1FF, ..Hom::default() }),
            Fields::Brk(Brk { t1: 65535, brake_flags: 0x03, ..Brk::default() }),
            Fields::Pid(Pid { kd_u: 3, kpf: -0.0, kif: f32::MAX, kdf: f32::from_bits(1), ..Pid::default() }),
        ];
        for fields in sets {
            assert_eq!(ask(&mut board, Request::Set(fields)), Answer::SetEcho(fields.block()));
            assert_eq!(Fields::of(&same::blocks_of(&board), fields.block()), fields);
            assert_eq!(ask(&mut board, Request::Get(fields.block())), Answer::Data(fields));
        }
        assert_eq!(ask(&mut board, Request::Order(Order::Home)), Answer::OrderEcho(Order::Home));
    }
}
