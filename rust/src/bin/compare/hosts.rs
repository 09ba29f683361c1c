//! Both hosts: random requests, the board's replies, and bytes that no board need send.

use crate::counts::Counts;
use crate::run::hex;
use rivertosku::board::Order;
use rivertosku::fault::Fault;
use rivertosku::generator::{self, Random};
use rivertosku::host::{Answer, ReadRefusal};
use rivertosku::same;
use rivertosku::second_host::Request;
use rivertosku::table::{row, GPOS_TOTAL, ORDERS};

/// A get, an order, or a set: fields in range, at its edges or out of it, or zeros.
fn request(random: &mut Random) -> Request {
    let number = generator::host_block(random);
    match random.below(40) {
        0..=15 => Request::Get(number),
        16..=23 => Request::Order(1 + random.below(ORDERS.len())),
        24..=28 => Request::Set(number, generator::zero_data(random, number)),
        _ => {
            let wrong = random.pick(&[0, 0, 0, 0, 1, 2]);
            Request::Set(number, generator::data(random, number, wrong))
        }
    }
}

/// The frame of a request, out of a buffer too short, as long as the frame, or longer. Those that are refused are compared and left.
pub fn requested(random: &mut Random, fault: Fault, counts: &mut Counts) -> Result<Vec<u8>, String> {
    loop {
        let request = request(random);
        let length = match &request {
            Request::Set(number, _) => row(*number).total(),
            Request::Get(_) | Request::Order(_) => 4,
        };
        let room = match random.below(10) {
            0 => random.below(length),
            1 => length - 1,
            2..=4 => length,
            5 => length + 1,
            _ => length + random.below(20),
        };
        match same::write(&request, room, fault, counts.written)? {
            Ok(frame) => {
                counts.written += 1;
                return Ok(frame);
            }
            Err(refusal) => counts.unwritten[refusal as usize - 3] += 1,
        }
    }
}

/// Both hosts read the front of the bytes.
fn read(bytes: &[u8], fault: Fault, counts: &mut Counts) -> Result<Result<(Answer, usize), ReadRefusal>, String> {
    let said = same::read(bytes, fault)?;
    match said {
        Ok(_) => counts.read += 1,
        Err(refusal) => counts.unread[refusal as usize - 5] += 1,
    }
    Ok(said)
}

/// An answer at the front that is outside the host, since "later commands stay outside": where `Counts::outside` counts it, the order that
/// it echoes, its length.
fn outside(bytes: &[u8]) -> Option<(usize, Option<u8>, usize)> {
    match bytes.first_chunk()? {
        b"move" => Some((0, Some(8), 4)),
        b"movr" => Some((0, Some(9), 4)),
        b"spos" => Some((1, None, 4)),
        b"gpos" => Some((2, None, GPOS_TOTAL)),
        b"zero" => Some((3, None, 4)),
        b"sctl" | b"sjoy" => Some((4, None, 4)),
        b"gctl" => Some((5, None, row(11).total())),
        b"gjoy" => Some((5, None, row(12).total())),
        _ => None,
    }
}

/// Reads a reply to its last byte, answer after answer; what differs, is refused, or echoes another order than the call's.
pub fn read_reply(reply: &[u8], order: Option<Order>, fault: Fault, counts: &mut Counts) -> Result<(), String> {
    let mut echoed = vec![];
    let mut left = reply;
    while !left.is_empty() {
        let length = match (read(left, fault, counts)?, outside(left)) {
            (Ok((answer, length)), None) => {
                counts.answer(&answer);
                if let Answer::OrderEcho(order) = answer {
                    echoed.push(order as u8);
                }
                length
            }
            (Err(ReadRefusal::NoAnswer), Some((kind, order, length))) => {
                counts.outside[kind] += 1;
                echoed.extend(order);
                length
            }
            (said, _) => return Err(format!("reply {}: of its last {} bytes is read {said:?}", hex(reply), left.len())),
        };
        left = &left[length..];
    }
    if !echoed.iter().copied().eq(order.map(Order::number)) {
        return Err(format!("order {order:?}, but echoed {echoed:?}"));
    }
    Ok(())
}

/// Both readers on what no board need send: an answer cut at every length, or several joined, up to the first that is refused.
pub fn read_alone(random: &mut Random, fault: Fault, counts: &mut Counts) -> Result<(), String> {
    if random.percent(20) {
        let answer = generator::answer(random);
        for length in 0..=answer.len() {
            let _ = read(&answer[..length], fault, counts)?;
        }
        return Ok(());
    }
    let joined = (0..1 + random.below(4)).flat_map(|_| generator::answer(random)).collect::<Vec<u8>>();
    let mut left = &joined[..];
    while let Ok((_, length)) = read(left, fault, counts)? {
        left = &left[length..];
    }
    Ok(())
}
