//! Random frames, good and nasty, from a seeded generator.

use crate::second::crc;
use crate::table::{place, row, Field, BLOCKS, GPOS, HOST_BLOCKS, ORDERS, SETS, TABLE, ZERO};

/// The bench's reply room.
pub const BENCH_ROOM: usize = 250;

/// splitmix64
pub struct Random(pub u64);

impl Random {
    pub fn word(&mut self) -> u64 {
        self.0 = self.0.wrapping_add(0x9E37_79B9_7F4A_7C15);
        let mut z = self.0;
        z = (z ^ z >> 30).wrapping_mul(0xBF58_476D_1CE4_E5B9);
        z = (z ^ z >> 27).wrapping_mul(0x94D0_49BB_1331_11EB);
        z ^ z >> 31
    }

    /// A number under `n`.
    pub fn below(&mut self, n: usize) -> usize {
        (self.word() % n as u64) as usize
    }

    /// A number from `low` to `high`, both possible.
    pub fn within(&mut self, low: i128, high: i128) -> i128 {
        low + self.word() as i128 % (high - low + 1)
    }

    pub fn percent(&mut self, n: usize) -> bool {
        self.below(100) < n
    }

    pub fn pick<T: Copy>(&mut self, from: &[T]) -> T {
        from[self.below(from.len())]
    }
}

const NOT_FINITE: [u32; 6] = [0x7F80_0000, 0xFF80_0000, 0x7F80_0001, 0x7FC0_0000, 0xFFFF_FFFF, 0x7FFF_FFFF];
const FINITE: [u32; 6] = [0, 0x8000_0000, 0x7F7F_FFFF, 0xFF7F_FFFF, 1, 0x3F80_0000];

/// The bits of a width that are set, each alone.
fn single_bits(width: usize, set: u64) -> Vec<u64> {
    (0..8 * width).map(|i| 1 << i).filter(|bit| set & bit != 0).collect()
}

fn good(random: &mut Random, field: Field) -> Vec<u8> {
    match field {
        Field::Whole(width, low, high) => {
            let value = match random.below(6) {
                0 => low,
                1 => high,
                2 if low <= 0 => 0,
                3 => random.within(low, high.min(low + 300)),
                _ => random.within(low, high),
            };
            value.to_le_bytes()[..width].to_vec()
        }
        Field::Flags(width, known) => {
            let flags = match random.below(4) {
                0 => 0,
                1 => known,
                2 => random.pick(&single_bits(width, known)),
                _ => random.word() & known,
            };
            flags.to_le_bytes()[..width].to_vec()
        }
        Field::Float => {
            let mut bits = random.word() as u32;
            if bits >> 23 & 0xFF == 0xFF || random.percent(30) {
                bits = random.pick(&FINITE);
            }
            bits.to_le_bytes().to_vec()
        }
    }
}

/// A value out of the field's range, mostly one past it or with one unknown flag bit; `None` if the field takes every value.
fn bad(random: &mut Random, field: Field) -> Option<Vec<u8>> {
    match field {
        Field::Whole(width, low, high) => {
            let (least, most) = field.bounds();
            let mut past = vec![];
            if low > least {
                past.extend([low - 1, low - 1, random.within(least, low - 1)]);
            }
            if high < most {
                past.extend([high + 1, high + 1, most, random.within(high + 1, most)]);
            }
            (!past.is_empty()).then(|| random.pick(&past).to_le_bytes()[..width].to_vec())
        }
        Field::Flags(width, known) => {
            let unknown = single_bits(width, !known);
            let others = match random.below(5) {
                0 => known,
                1 => random.word() & known,
                2 => random.word(),
                _ => 0,
            };
            (!unknown.is_empty()).then(|| (random.pick(&unknown) | others).to_le_bytes()[..width].to_vec())
        }
        Field::Float => Some(random.pick(&NOT_FINITE).to_le_bytes().to_vec()),
    }
}

/// ctl's first speed and its part: one of them is not zero, if the rule is kept.
fn first_speed(random: &mut Random, kept: bool) -> (u32, u8) {
    let any = random.within(1, 100_000) as u32;
    let speed = random.pick(&[1, 1 << 8, 1 << 16, 100_000, any]);
    let part = random.pick(&[1, 0x80, 0xFF]);
    match random.below(3) {
        _ if !kept => (0, 0),
        0 => (speed, 0),
        1 => (0, part),
        _ => (speed, part),
    }
}

/// joy's low end, centre and high end, often two of them the same; in their sequence, if the rule is kept, else often just out of it.
fn ends(random: &mut Random, kept: bool) -> [u16; 3] {
    let any = random.within(1, 9999) as u16;
    let centre = random.pick(&[1, 255, 256, 9999, any]);
    if !kept {
        return random.pick(&[[centre + 1, centre, 10_000], [0, centre, centre - 1], [10_000, centre, 0]]);
    }
    let mut ends = [0; 3].map(|_| random.pick(&[0, centre, centre, centre + 1, 10_000]));
    ends.sort_unstable();
    ends
}

/// The fields of a set, all of them in range; its rule, if it has one, kept or broken.
fn fields(random: &mut Random, number: usize, kept: bool) -> Vec<Vec<u8>> {
    let mut fields: Vec<_> = row(number).fields.iter().map(|&field| good(random, field)).collect();
    match number {
        11 => {
            let (speed, part) = first_speed(random, kept);
            (fields[0], fields[10]) = (speed.to_le_bytes().to_vec(), vec![part]);
        }
        12 => {
            for (field, end) in fields.iter_mut().zip(ends(random, kept)) {
                *field = end.to_le_bytes().to_vec();
            }
        }
        _ => {}
    }
    fields
}

/// A data section of a set: fields in range and its rule kept, but for up to `wrong` fields out of range or, as one of these, a broken rule;
/// and the reserved bytes.
pub fn data(random: &mut Random, number: usize, wrong: usize) -> Vec<u8> {
    let row = row(number);
    let broken = wrong > 0 && !row.rules.is_empty() && random.percent(40);
    let mut fields = fields(random, number, !broken);
    let mut left = wrong - broken as usize;
    for _ in 0..100 * left {
        let i = random.below(fields.len());
        if let Some(value) = bad(random, row.fields[i]) {
            fields[i] = value;
            left -= 1;
            if left == 0 {
                break;
            }
        }
    }
    let mut bytes = fields.concat();
    let nonzero = random.percent(50);
    bytes.extend((0..row.reserved).map(|_| if nonzero { random.word() as u8 } else { 0 }));
    bytes
}

/// A data section mostly of zeros, or of nothing else, in range or not: zeros may end a good set.
pub fn zero_data(random: &mut Random, number: usize) -> Vec<u8> {
    let mut data = data(random, number, 0);
    let from = random.below(data.len());
    data[from..].fill(0);
    if random.percent(50) {
        data.fill(0);
        data[..2].fill(0xFF);
    }
    data
}

/// A data section as a board keeps it, reserved bytes zero, but for up to `wrong` fields out of range or a broken rule.
pub fn kept(random: &mut Random, block: usize, wrong: usize) -> Vec<u8> {
    let mut bytes = data(random, block, wrong);
    bytes[row(block).used()..].fill(0);
    bytes
}

/// A data section in range of which one reserved byte is not zero: often the first or the last, and often by one bit.
pub fn unclean(random: &mut Random, block: usize) -> Vec<u8> {
    let mut bytes = kept(random, block, 0);
    let (first, last) = (row(block).used(), bytes.len() - 1);
    let any = first + random.below(last + 1 - first);
    bytes[random.pick(&[first, last, any, any])] = random.pick(&[1, 0x10, 0x80, 0xFF]);
    bytes
}

/// The table of a sound board.
pub fn sound_table(random: &mut Random) -> Vec<u8> {
    BLOCKS.iter().flat_map(|&block| kept(random, block, 0)).collect()
}

/// What flash may have: a sound table, one with a block that is not, a bit tipped over, or bytes of another number.
pub fn stored(random: &mut Random) -> Vec<u8> {
    let mut table = sound_table(random);
    let block = any_block(random);
    match random.below(10) {
        0 | 1 => table[place(block)].copy_from_slice(&kept(random, block, 1)),
        2 | 3 => table[place(block)].copy_from_slice(&unclean(random, block)),
        4 => table[random.below(TABLE)] ^= 1 << random.below(8),
        _ => {}
    }
    let any = random.below(2 * TABLE);
    let length = if random.percent(70) { TABLE } else { random.pick(&[0, TABLE - 1, TABLE + 1, place(block).start, any]) };
    table.resize(length, random.pick(&[0, 0xFF]));
    table
}

/// Which sets or names a frame is to be drawn from.
pub type Draw<T> = fn(&mut Random) -> T;

/// The number of any block.
pub fn any_block(random: &mut Random) -> usize {
    random.pick(&BLOCKS)
}

/// The number of a block that a host knows.
pub fn host_block(random: &mut Random) -> usize {
    random.below(HOST_BLOCKS) + 1
}

/// The number of a set that no host writes: of move, movr, spos or a later block.
pub fn outside_set(random: &mut Random) -> usize {
    random.below(SETS - HOST_BLOCKS) + HOST_BLOCKS + 1
}

/// The number of any set.
pub fn any_set(random: &mut Random) -> usize {
    random.below(SETS) + 1
}

pub fn good_set(random: &mut Random, of: Draw<usize>) -> Vec<u8> {
    let number = of(random);
    let data = data(random, number, 0);
    row(number).set_frame(&data)
}

/// A set with fields out of range or its rule broken: one of these, or more.
pub fn bad_set(random: &mut Random, of: Draw<usize>) -> Vec<u8> {
    let number = of(random);
    let wrong = random.pick(&[1, 1, 2, 3]);
    let data = data(random, number, wrong);
    row(number).set_frame(&data)
}

pub fn zero_set(random: &mut Random, of: Draw<usize>) -> Vec<u8> {
    let number = of(random);
    let data = zero_data(random, number);
    row(number).set_frame(&data)
}

/// A frame with its CRC made wrong: a bit of its data or CRC, its bytes exchanged, or taken over the identifier too.
fn damaged(random: &mut Random, mut frame: Vec<u8>) -> Vec<u8> {
    let end = frame.len() - 2;
    match random.below(6) {
        0 => frame.swap(end, end + 1),
        1 => {
            let sum = crc(&frame[..end]).to_le_bytes();
            frame[end..].copy_from_slice(&sum);
        }
        2 => frame[end + random.below(2)] ^= 1 << random.below(8),
        _ => frame[4 + random.below(end - 2)] ^= 1 << random.below(8),
    }
    frame
}

pub fn damaged_set(random: &mut Random, of: Draw<usize>) -> Vec<u8> {
    let frame = if random.percent(30) { bad_set(random, of) } else { good_set(random, of) };
    damaged(random, frame)
}

pub fn get(random: &mut Random) -> Vec<u8> {
    row(any_block(random)).get()
}

pub fn order(random: &mut Random) -> Vec<u8> {
    random.pick(&ORDERS).to_vec()
}

/// A command without data that no host writes: gpos, zero, or the get of a later block.
pub fn outside_get(random: &mut Random) -> Vec<u8> {
    match random.below(4) {
        0 => GPOS.to_vec(),
        1 => ZERO.to_vec(),
        _ => row(random.pick(&BLOCKS[HOST_BLOCKS..])).get(),
    }
}

/// Any name of a block or an order.
pub fn name(random: &mut Random) -> Vec<u8> {
    match random.below(3) {
        0 => get(random),
        1 => order(random),
        _ => row(any_block(random)).set.to_vec(),
    }
}

/// Any name that is known.
pub fn any_name(random: &mut Random) -> Vec<u8> {
    match random.below(4) {
        0 => outside_get(random),
        1 => row(outside_set(random)).set.to_vec(),
        _ => name(random),
    }
}

/// A name one letter off, or four bytes of any kind.
pub fn unknown(random: &mut Random, of: Draw<Vec<u8>>) -> Vec<u8> {
    let mut name = of(random);
    let at = random.below(4);
    match random.below(8) {
        0 => name[at] = name[at].wrapping_add(1),
        1 => name[at] = name[at].wrapping_sub(1),
        2 => name[at] = random.word() as u8,
        3 => name[1 + random.below(3)] = 0,
        4 => name[at] ^= 0x20,
        5 => name[0] = random.pick(b"sg"),
        6 => name.swap(at, (at + 1) % 4),
        _ => name = random.word().to_le_bytes()[..4].to_vec(),
    }
    name
}

/// A get's answer as no board need give it: fields out of range, reserved bytes not zero.
fn data_answer(random: &mut Random) -> Vec<u8> {
    let number = any_block(random);
    let wrong = random.pick(&[0, 0, 1, 2, 3]);
    let data = data(random, number, wrong);
    row(number).get_frame(&data)
}

/// What may come to a host: answers, damaged ones, and names that no answer has.
pub fn answer(random: &mut Random) -> Vec<u8> {
    match random.below(10) {
        0 => vec![0],
        1 | 2 => any_name(random),
        3 => [b"err", &[random.pick(b"cdv")][..]].concat(),
        4 => [b"err", &[random.word() as u8][..]].concat(),
        5 => unknown(random, any_name),
        6 => {
            let frame = data_answer(random);
            damaged(random, frame)
        }
        _ => data_answer(random),
    }
}

#[cfg(test)]
mod tests {
    use super::*;
    use crate::fault::Fault;
    use crate::second::Second;
    use crate::table::{ROWS, RULE};

    /// Sound tables are, and of those with a section that is not clean each reserved byte is the only cause at some time.
    #[test]
    fn tables() {
        let mut random = Random(1);
        let second = |table: Vec<u8>| Second { table: table.try_into().expect("a whole table"), ..Second::fresh() };
        let mut seen = [false; TABLE];
        for round in 0..10_000 {
            let mut table = sound_table(&mut random);
            assert_eq!(second(table.clone()).unsound_table(Fault::None), None);
            let block = BLOCKS[round % BLOCKS.len()];
            table[place(block)].copy_from_slice(&unclean(&mut random, block));
            assert_eq!(second(table.clone()).unsound_table(Fault::None), Some(Fault::ReservedNotZero));
            let from = place(block).start + row(block).used();
            let at = table[from..place(block).end].iter().position(|&byte| byte != 0).expect("a byte that is not zero");
            seen[from + at] = true;
        }
        assert_eq!(seen.iter().filter(|&&seen| seen).count(), BLOCKS.iter().map(|&block| row(block).reserved).sum());
    }

    /// With nothing wrong the rules are kept; with one thing it is at times the rule and at times a field; with two at times both.
    #[test]
    fn rules() {
        let mut random = Random(1);
        for number in [11, 12] {
            let mut bad = |wrong| row(number).bad_fields(&data(&mut random, number, wrong));
            assert!((0..3000).all(|_| bad(0).is_empty()));
            let one: Vec<_> = (0..3000).map(|_| bad(1)).collect();
            assert!(one.iter().all(|bad| !bad.is_empty()));
            assert!(one.iter().filter(|bad| **bad == [RULE]).count() > 1000);
            assert!(one.iter().filter(|bad| bad[0] < RULE).count() > 1000);
            let two: Vec<_> = (0..3000).map(|_| bad(2)).collect();
            assert!(two.iter().filter(|bad| bad.len() > 1 && bad.ends_with(&[RULE])).count() > 500);
        }
        // Each end equal to the centre and not; the first speed and its part each alone and together.
        let kept: Vec<_> = (0..3000).map(|_| ends(&mut random, true)).collect();
        let cases = [(true, true), (true, false), (false, true), (false, false)];
        assert!(cases.iter().all(|&case| kept.iter().any(|&[low, centre, high]| (low == centre, centre == high) == case)));
        let kept: Vec<_> = (0..3000).map(|_| first_speed(&mut random, true)).collect();
        assert!(cases[1..].iter().all(|&case| kept.iter().any(|&(speed, part)| (speed == 0, part == 0) == case)));
    }

    fn number(bytes: &[u8]) -> u64 {
        bytes.iter().rev().fold(0, |n, &byte| n << 8 | byte as u64)
    }

    /// In range known bits only: none, each alone, all. Out of range an unknown one: each alone, each with all known ones.
    #[test]
    fn flag_bits() {
        let mut random = Random(1);
        let wide = [Field::Flags(8, 0xFF), Field::Flags(8, 1 << 63)];
        for &field in ROWS.iter().flat_map(|row| row.fields).chain(&wide) {
            let Field::Flags(width, known) = field else { continue };
            let inside: Vec<u64> = (0..3000).map(|_| number(&good(&mut random, field))).collect();
            let outside: Vec<u64> = (0..3000).map(|_| number(&bad(&mut random, field).expect("a value"))).collect();
            assert!(inside.iter().all(|flags| flags & !known == 0));
            assert!(outside.iter().all(|flags| flags & !known != 0));
            assert!(inside.contains(&0) && inside.contains(&known));
            assert!(single_bits(width, known).iter().all(|bit| inside.contains(bit)));
            assert!(single_bits(width, !known).iter().all(|bit| outside.contains(bit) && outside.contains(&(bit | known))));
        }
    }

    /// Values in range and out of it, for each width: all of it, all but its ends, and a narrow range.
    #[test]
    fn whole_numbers_of_each_width() {
        let mut random = Random(1);
        for width in 1..=8 {
            for sign in [-1, 0] {
                let (least, most) = Field::Whole(width, sign, 1).bounds();
                assert!(bad(&mut random, Field::Whole(width, least, most)).is_none());
                for (low, high) in [(least, most), (least + 1, most - 1), (sign, 1)] {
                    let field = Field::Whole(width, low, high);
                    assert!((0..1000).all(|_| field.takes(&good(&mut random, field))));
                    assert!((0..1000).all(|_| bad(&mut random, field).is_none_or(|bytes| !field.takes(&bytes))));
                }
            }
        }
        assert_eq!(single_bits(8, u64::MAX).len(), 64);
    }
}
