//! A second host, written from sheets 01 and 02, with no code or table of the library. A block is its number and its data section as bytes,
//! and a refusal is 02's number.
//! It can be broken on purpose (`Fault`), to see that a comparison notices.

use crate::fault::Fault;
use crate::table::{get_named, order_named, row, set_named, HOST_BLOCKS, ORDERS};

/// Reserved bytes in the data section of a set count for nothing.
#[derive(Clone, PartialEq, Debug)]
pub enum Request {
    Get(usize),
    Set(usize, Vec<u8>),
    Order(usize),
}

#[derive(Clone, PartialEq, Debug)]
pub enum Answer {
    Zero,
    SetEcho(usize),
    OrderEcho(usize),
    /// The block, and the data section as it came.
    Data(usize, Vec<u8>),
    Errc,
    Errd,
    Errv,
}

fn in_range(fault: Fault, number: usize, data: &[u8]) -> bool {
    let bad = row(number).bad_fields(data);
    match fault {
        // uHomeDelta
        Fault::HostRangeOneOff if number == 5 && data[14..16] == [0, 1] => bad == [6],
        Fault::HostUnknownBitPasses => bad.iter().all(|&field| row(number).fields[field - 1].has_flags()),
        _ => bad.is_empty(),
    }
}

fn frame(fault: Fault, request: &Request) -> Vec<u8> {
    match request {
        Request::Get(number) => row(*number).get(),
        Request::Order(number) => ORDERS[number - 1].to_vec(),
        Request::Set(number, data) => {
            let mut data = data.clone();
            if fault != Fault::HostReservedSent {
                data[row(*number).used()..].fill(0);
            }
            let mut frame = row(*number).set_frame(&data);
            if fault == Fault::HostCrcHighByteFirst {
                let end = frame.len() - 2;
                frame[end..].reverse();
            }
            frame
        }
    }
}

/// Writes a request's frame: its length, or 3 or 4.
pub fn write(fault: Fault, request: &Request, out: &mut [u8]) -> Result<usize, u8> {
    let frame = frame(fault, request);
    let length = frame.len();
    let short = out.len() < length;
    let bad = match request {
        Request::Set(number, data) => fault != Fault::HostRangeSkipped && !in_range(fault, *number, data),
        _ => false,
    };
    if short && fault == Fault::HostRoomBeforeRange {
        return Err(4);
    }
    if bad {
        return Err(3);
    }
    if short {
        if fault == Fault::HostWritesWhatFits {
            out.copy_from_slice(&frame[..out.len()]);
        }
        return Err(4);
    }
    out[..length].copy_from_slice(&frame);
    if fault == Fault::HostWritesPast && out.len() > length {
        out[length] = 0;
    }
    Ok(if fault == Fault::HostWrittenOneOff { length - 1 } else { length })
}

/// Reads a get's answer: its block's total, then its CRC.
fn read_data(fault: Fault, number: usize, bytes: &[u8]) -> Result<(Answer, usize), u8> {
    let row = row(number);
    let total = row.total();
    if bytes.len() < total {
        return Err(7);
    }
    let data = &bytes[4..total - 2];
    if bytes[..total] != row.get_frame(data) && fault != Fault::HostCrcUnread {
        return Err(8);
    }
    let judged = match fault {
        Fault::HostReaderJudgesRange => !in_range(fault, number, data),
        Fault::HostReaderJudgesReserved => data[row.used()..].iter().any(|&byte| byte != 0),
        _ => false,
    };
    if judged {
        return Err(8);
    }
    Ok((Answer::Data(number, data.to_vec()), if fault == Fault::HostReadOneOff { total - 1 } else { total }))
}

/// Reads one answer from the front: the answer and its length, or 5 to 8.
pub fn read(fault: Fault, bytes: &[u8]) -> Result<(Answer, usize), u8> {
    let zero = bytes.first() == Some(&0);
    if zero && (bytes.len() >= 4 || fault != Fault::HostZeroNotFirst) {
        return Ok((Answer::Zero, 1));
    }
    let Some(name) = bytes.first_chunk::<4>() else { return Err(5) };
    // "later commands stay outside"
    let inside = |number: &usize| *number <= HOST_BLOCKS;
    let answer = match (name, get_named(name).filter(inside), set_named(name).filter(inside), order_named(name)) {
        (b"errc", ..) => Answer::Errc,
        (b"errd", ..) => Answer::Errd,
        (b"errv", ..) => Answer::Errv,
        (_, Some(number), ..) => return read_data(fault, number, bytes),
        (_, _, Some(number), _) => Answer::SetEcho(number),
        (.., Some(number)) => Answer::OrderEcho(number),
        // Under 20 bytes are fewer than any data answer needs.
        _ if fault == Fault::HostCutBeforeName && bytes.len() < 20 => return Err(7),
        _ => return Err(6),
    };
    Ok((answer, 4))
}

#[cfg(test)]
mod tests {
    use super::*;
    use crate::second::Second;
    use crate::table::place;

    /// 01's frame of brk with t1 65535, behind the letter of a set or a get.
    fn brake_frame(letter: u8) -> Vec<u8> {
        [&[letter], &b"brk\xFF\xFF"[..], &[0; 19]].concat()
    }

    #[test]
    fn writes() {
        // Reserved bytes of the request are not sent.
        let request = Request::Set(6, [&[0xFF, 0xFF], &[0; 7][..], &[1; 10]].concat());
        let mut out = [0xAA; 26];
        assert_eq!(write(Fault::None, &request, &mut out), Ok(25));
        assert_eq!((&out[..25], out[25]), (&brake_frame(b's')[..], 0xAA));
        assert_eq!(write(Fault::None, &request, &mut out[..24]), Err(4));
        assert_eq!(write(Fault::None, &Request::Order(5), &mut out), Ok(4));
        assert_eq!(write(Fault::None, &Request::Get(7), &mut out[4..]), Ok(4));
        assert_eq!(&out[..8], b"rigtgpid");
        assert_eq!(write(Fault::None, &Request::Set(1, vec![0; 24]), &mut []), Err(3));
    }

    #[test]
    fn ranges() {
        let micro = |value: i16| [&[0; 14], &value.to_le_bytes()[..], &[0; 11]].concat();
        for (value, good) in [(-256, false), (-255, true), (255, true), (256, false)] {
            assert_eq!(in_range(Fault::None, 5, &micro(value)), good);
        }
        let gain = |bits: u32| [&[0; 14], &bits.to_le_bytes()[..], &[0; 24]].concat();
        for (bits, good) in [(0x7F7F_FFFF, true), (0x7F80_0000, false), (0xFFC0_0000, false), (0x8000_0000, true)] {
            assert_eq!(in_range(Fault::None, 7, &gain(bits)), good);
        }
    }

    /// Each bit of each flag field alone.
    #[test]
    fn flag_bits() {
        // Block, the flags' place and bits, the known ones.
        let flags = [(2, 9, 16, 0xFF), (3, 7, 8, 0x07), (4, 0, 8, 0x0F), (4, 1, 8, 0x07), (5, 16, 16, 0x1FF), (6, 8, 8, 0x03)];
        for (number, at, bits, known) in flags {
            for bit in 0..bits {
                let mut data = Second::fresh().table[place(number)].to_vec();
                data[at + bit / 8] |= 1 << (bit % 8);
                assert_eq!(in_range(Fault::None, number, &data), known >> bit & 1 == 1);
            }
        }
    }

    #[test]
    fn reads() {
        let data = brake_frame(b'g');
        let damaged = [&data[..24], &[1]].concat();
        let cases: [(&[u8], _); 12] = [
            (&[0], Ok((Answer::Zero, 1))),
            (b"errvx", Ok((Answer::Errv, 4))),
            (b"shom", Ok((Answer::SetEcho(5), 4))),
            (b"sstp", Ok((Answer::OrderEcho(2), 4))),
            (b"gmo", Err(5)),
            (b"gxyz", Err(6)),
            (b"move", Err(6)),
            (b"gpos", Err(6)),
            (b"sctl", Err(6)),
            (b"gjoy", Err(6)),
            (&data[..24], Err(7)),
            (&damaged, Err(8)),
        ];
        for (bytes, said) in cases {
            assert_eq!(read(Fault::None, bytes), said);
        }
        assert_eq!(read(Fault::None, &data), Ok((Answer::Data(6, data[4..23].to_vec()), 25)));
    }
}
