//! 01's tables of blocks and orders, with 02's known flag bits, the sets of P5 and the blocks of P6, and the places of the blocks in P10's
//! table of settings. The second receiver, the second host and the generator share them. Written from the sheets, with no code or table of
//! the library.

use crate::second::crc;
use std::ops::Range;

/// What a field takes, by its width in bytes.
#[derive(Clone, Copy)]
pub enum Field {
    /// A whole number from the one to the other, signed if the field goes below zero.
    Whole(usize, i128, i128),
    /// Any of its known bits.
    Flags(usize, u64),
    /// A finite float.
    Float,
}

const U8: Field = Field::Whole(1, 0, 0xFF);
const U16: Field = Field::Whole(2, 0, 0xFFFF);
const S16: Field = Field::Whole(2, -0x8000, 0x7FFF);
const S32: Field = Field::Whole(4, -0x8000_0000, 0x7FFF_FFFF);
const S64: Field = Field::Whole(8, -0x8000_0000_0000_0000, 0x7FFF_FFFF_FFFF_FFFF);
const SPEED: Field = Field::Whole(4, 0, 100_000);
pub const MICRO: Field = Field::Whole(2, -255, 255);
const POSITIVE: Field = Field::Whole(2, 1, 0xFFFF);
const CURRENT: Field = Field::Whole(2, 15, 8000);
const STICK: Field = Field::Whole(2, 0, 10_000);
const ENGINE_FLAGS: Field = Field::Flags(2, 0xFF);
const POWER_FLAGS: Field = Field::Flags(1, 0x07);
const BORDER_FLAGS: Field = Field::Flags(1, 0x0F);
const ENDER_FLAGS: Field = Field::Flags(1, 0x07);
const HOME_FLAGS: Field = Field::Flags(2, 0x1FF);
const BRAKE_FLAGS: Field = Field::Flags(1, 0x03);
const POSITION_FLAGS: Field = Field::Flags(1, 0x03);
const CONTROL_FLAGS: Field = Field::Flags(2, 0x0F);
const STICK_FLAGS: Field = Field::Flags(1, 0x01);

impl Field {
    pub const fn width(self) -> usize {
        match self {
            Field::Whole(width, ..) | Field::Flags(width, _) => width,
            Field::Float => 4,
        }
    }

    pub fn has_flags(self) -> bool {
        matches!(self, Field::Flags(..))
    }

    /// Whether the field takes these bytes, low byte first.
    #[inline(always)]
    pub fn takes(self, bytes: &[u8]) -> bool {
        let mut wide = [0; 8];
        wide[..self.width()].copy_from_slice(bytes);
        let bits = u64::from_le_bytes(wide);
        match self {
            Field::Whole(width, low, high) => {
                let unused = 64 - 8 * width;
                let signed = (bits << unused) as i64 >> unused;
                let value = if low < 0 { signed as i128 } else { bits as i128 };
                low <= value && value <= high
            }
            Field::Flags(_, known) => bits & !known == 0,
            // The exponent's bits are not all ones.
            Field::Float => bits >> 23 & 0xFF != 0xFF,
        }
    }

    /// On a fresh board: 0, or the smallest allowed value where 0 is not allowed.
    fn fresh(self) -> i128 {
        match self {
            Field::Whole(_, low, _) => low.max(0),
            Field::Flags(..) | Field::Float => 0,
        }
    }

    /// The least and the most that its width could hold.
    pub fn bounds(self) -> (i128, i128) {
        let values = 1 << (8 * self.width());
        match self {
            Field::Whole(_, low, _) if low < 0 => (-values / 2, values / 2 - 1),
            _ => (0, values - 1),
        }
    }
}

/// A set's name and data section: of a block that a board keeps and a get sends, or of move, movr or spos.
pub struct Row {
    pub set: &'static [u8; 4],
    pub fields: &'static [Field],
    pub reserved: usize,
    /// "Our rules": what a data section has to keep besides its fields' ranges.
    pub rules: &'static [fn(&[u8]) -> bool],
}

/// A broken rule is "recorded as field 99".
pub const RULE: usize = 99;

/// Of ctl: "first speed and its part are not both zero". The parts stand behind ten speeds of four bytes.
#[inline(always)]
fn has_first_speed(data: &[u8]) -> bool {
    data[..4] != [0; 4] || data[40] != 0
}

/// Of joy: "low ≤ centre ≤ high".
#[inline(always)]
fn is_ascending(data: &[u8]) -> bool {
    let at = |place| u16::from_le_bytes([data[place], data[place + 1]]);
    at(0) <= at(2) && at(2) <= at(4)
}

/// The bytes of a name and of a CRC, which stand around a data section.
const NAME: usize = 4;
const CRC: usize = 2;

fn framed(name: &[u8], data: &[u8]) -> Vec<u8> {
    [name, data, &crc(data).to_le_bytes()].concat()
}

impl Row {
    /// A block's get: "The set begins with s, the get with g".
    pub fn get(&self) -> Vec<u8> {
        [b"g", &self.set[1..]].concat()
    }

    /// The bytes of its fields, which the reserved ones follow.
    pub const fn used(&self) -> usize {
        let (mut sum, mut i) = (0, 0);
        while i < self.fields.len() {
            sum += self.fields[i].width();
            i += 1;
        }
        sum
    }

    /// The bytes of its data section.
    pub const fn length(&self) -> usize {
        self.used() + self.reserved
    }

    pub const fn total(&self) -> usize {
        NAME + self.length() + CRC
    }

    /// The set of this data section.
    pub fn set_frame(&self, data: &[u8]) -> Vec<u8> {
        framed(self.set, data)
    }

    /// The answer of this data section to a block's get.
    pub fn get_frame(&self, data: &[u8]) -> Vec<u8> {
        framed(&self.get(), data)
    }

    /// Whether a data section keeps the rules.
    pub fn keeps_rules(&self, data: &[u8]) -> bool {
        self.rules.iter().all(|rule| rule(data))
    }

    /// The data section of a fresh board, less its reserved bytes: "the first speed is 1, the rest 0" where zeros break a rule.
    pub fn fresh(&self) -> Vec<u8> {
        let mut data: Vec<u8> = self.fields.iter().flat_map(|field| field.fresh().to_le_bytes().into_iter().take(field.width())).collect();
        if !self.keeps_rules(&data) {
            data[0] = 1;
        }
        data
    }

    /// The numbers of the fields that do not take what this data section holds; behind them `RULE`, if a rule is broken.
    pub fn bad_fields(&self, data: &[u8]) -> Vec<usize> {
        let mut bad = vec![];
        let mut rest = data;
        for (i, field) in self.fields.iter().enumerate() {
            let (bytes, behind) = rest.split_at(field.width());
            rest = behind;
            if !field.takes(bytes) {
                bad.push(i + 1);
            }
        }
        if !self.keeps_rules(data) {
            bad.push(RULE);
        }
        bad
    }
}

/// How many fields these runs of fields are.
const fn count(runs: &[(Field, usize)]) -> usize {
    let (mut sum, mut i) = (0, 0);
    while i < runs.len() {
        sum += runs[i].1;
        i += 1;
    }
    sum
}

/// The fields of these runs one by one.
const fn each<const N: usize>(runs: &[(Field, usize)]) -> [Field; N] {
    let (mut fields, mut n, mut i) = ([U8; N], 0, 0);
    while i < runs.len() {
        let end = n + runs[i].1;
        while n < end {
            fields[n] = runs[i].0;
            n += 1;
        }
        i += 1;
    }
    fields
}

/// The test of a data section, field after field.
struct Test<'d> {
    data: &'d [u8],
    /// The fields tested, and their bytes.
    fields: usize,
    bytes: usize,
    /// The number of the first that is bad, or behind all of them `RULE`, or 0.
    bad: usize,
}

impl<'d> Test<'d> {
    #[inline(always)]
    fn of(data: &'d [u8]) -> Test<'d> {
        Test { data, fields: 0, bytes: 0, bad: 0 }
    }

    /// So many fields that take the same.
    #[inline(always)]
    fn fields(mut self, field: Field, times: usize) -> Test<'d> {
        for _ in 0..times {
            let (fields, bytes) = (self.fields + 1, self.bytes + field.width());
            let bad = !field.takes(&self.data[self.bytes..bytes]);
            self = Test { fields, bytes, bad: if bad && self.bad == 0 { fields } else { self.bad }, ..self };
        }
        self
    }

    /// "the two rules come after all ranges"
    #[inline(always)]
    fn rule(self, rule: fn(&[u8]) -> bool) -> Test<'d> {
        Test { bad: if self.bad == 0 && !rule(self.data) { RULE } else { self.bad }, ..self }
    }
}

/// The rows, and what the second receiver asks of them in every call: written out field by field and name by name, since a loop over the
/// rows takes ten times as long.
macro_rules! rows {
    ($($number:literal $set:literal $($get:literal)? [$($field:expr $(; $times:literal)?),*] $reserved:literal $($rule:ident)?;)*) => {
        /// The numbers of the blocks that a board keeps and a get sends.
        pub const BLOCKS: [usize; [$($($get,)?)*].len()] = [$($(numbered($number, $get),)?)*];
        /// All sets: the blocks' and, with the numbers between, move, movr and spos.
        pub const SETS: usize = [$($number),*].len();

        pub const ROWS: [Row; SETS] = [$(Row {
            set: $set,
            fields: {
                const RUNS: &[(Field, usize)] = &[$(($field, 1 $(* $times)?)),*];
                const FIELDS: [Field; count(RUNS)] = each(RUNS);
                &FIELDS
            },
            reserved: $reserved,
            rules: &[$($rule)?],
        }),*];

        /// The number of the set that has this name.
        #[inline(always)]
        pub fn set_named(name: &[u8; NAME]) -> Option<usize> {
            match name {
                $($set => Some($number),)*
                _ => None,
            }
        }

        /// The number of the block whose get has this name.
        #[inline(always)]
        pub fn get_named(name: &[u8; NAME]) -> Option<usize> {
            match name {
                $($($get => Some($number),)?)*
                _ => None,
            }
        }

        /// The number of the first field of a set that does not take what this data section holds; `RULE` if all do but a rule is broken; 0 if
        /// nothing is wrong.
        #[inline(always)]
        pub fn bad_field(number: usize, data: &[u8]) -> usize {
            match number {
                $($number => {
                    let data = &data[..const { ROWS[$number - 1].used() }];
                    Test::of(data)$(.fields($field, 1 $(* $times)?))*$(.rule($rule))?.bad
                })*
                _ => 0,
            }
        }

        /// Whether every field of a table is in range, every rule kept and every reserved byte zero.
        #[inline(always)]
        pub fn is_sound(table: &[u8; TABLE]) -> bool {
            $($({
                const NUMBER: usize = numbered($number, $get);
                let (fields, reserved) = table[const { BEGINS[NUMBER - 1] }..].split_at(const { ROWS[NUMBER - 1].used() });
                if bad_field(NUMBER, fields) != 0 || reserved[..$reserved] != [0; $reserved] {
                    return false;
                }
            })?)*
            true
        }
    };
}

/// The number of a row that has a get.
const fn numbered(number: usize, _get: &[u8; NAME]) -> usize {
    number
}

// A number, its set and, of a block, its get; the fields, of an array one and how many; how many bytes are reserved; the rule, if there is one.
rows! {
    1 b"smov" b"gmov" [SPEED, U8, POSITIVE, POSITIVE, SPEED, U8] 10;
    2 b"seng" b"geng" [U16, CURRENT, Field::Whole(4, 1, 100_000), U8, ENGINE_FLAGS, S16, Field::Whole(1, 1, 9), POSITIVE] 12;
    3 b"spwr" b"gpwr" [Field::Whole(1, 0, 100), U16, U16, U16, POWER_FLAGS] 6;
    4 b"seds" b"geds" [BORDER_FLAGS, ENDER_FLAGS, S32, MICRO, S32, MICRO] 6;
    5 b"shom" b"ghom" [SPEED, U8, SPEED, U8, S32, MICRO, HOME_FLAGS] 9;
    6 b"sbrk" b"gbrk" [U16, U16, U16, U16, BRAKE_FLAGS] 10;
    7 b"spid" b"gpid" [U16, U16, U16, Field::Float, Field::Float, Field::Float] 24;
    8 b"move" [S32, MICRO] 6;
    9 b"movr" [S32, MICRO] 6;
    10 b"spos" [S32, MICRO, S64, POSITION_FLAGS] 5;
    11 b"sctl" b"gctl" [SPEED; 10, U8; 10, U16; 9, U16, CONTROL_FLAGS, S32, MICRO] 9 has_first_speed;
    12 b"sjoy" b"gjoy" [STICK, STICK, STICK, U8, U8, STICK_FLAGS] 7 is_ascending;
}

pub const ORDERS: [&[u8; 4]; 7] = [b"stop", b"sstp", b"pwof", b"left", b"rigt", b"home", b"loft"];

/// The get of the position, and what clears it but for the count.
pub const GPOS: &[u8; NAME] = b"gpos";
pub const ZERO: &[u8; NAME] = b"zero";

/// The bytes of a travel: steps, then microsteps.
pub const TRAVEL: usize = 6;
/// The bytes of a position: a travel's, then the encoder count.
pub const POSITION: usize = TRAVEL + 8;
/// The total of gpos's answer, in which 6 bytes are reserved.
pub const GPOS_TOTAL: usize = NAME + POSITION + 6 + CRC;

/// The set that has this number.
pub fn row(number: usize) -> &'static Row {
    &ROWS[number - 1]
}

/// The number of the order that has this name.
#[inline(always)]
pub fn order_named(name: &[u8]) -> Option<usize> {
    ORDERS.iter().position(|order| *order == name).map(|i| i + 1)
}

/// Each set's total.
pub const TOTAL: [usize; SETS] = {
    let (mut totals, mut i) = ([0; SETS], 0);
    while i < SETS {
        totals[i] = ROWS[i].total();
        i += 1;
    }
    totals
};

/// The longest total of the sets up to this number.
const fn longest(sets: usize) -> usize {
    let (mut longest, mut i) = (0, 0);
    while i < sets {
        if TOTAL[i] > longest {
            longest = TOTAL[i];
        }
        i += 1;
    }
    longest
}

/// The longest total: of a set's frame and of an answer.
pub const FRAME: usize = longest(SETS);

/// 01's blocks, which are the host's: "later commands stay outside"; and the longest total of these.
pub const HOST_BLOCKS: usize = 7;
pub const HOST_FRAME: usize = longest(HOST_BLOCKS);

/// The longest data section.
pub const DATA: usize = FRAME - NAME - CRC;

/// Where each set's data section begins in the table of all settings: "the blocks in number order (move, movr and spos have none)", one
/// behind the other.
const BEGINS: [usize; SETS] = {
    let (mut begins, mut end, mut i) = ([usize::MAX; SETS], 0, 0);
    while i < BLOCKS.len() {
        let row = BLOCKS[i] - 1;
        begins[row] = end;
        end += ROWS[row].length();
        i += 1;
    }
    begins
};

/// The last block.
pub const LAST: usize = BLOCKS[BLOCKS.len() - 1];

/// The bytes of that table.
pub const TABLE: usize = BEGINS[LAST - 1] + ROWS[LAST - 1].length();

/// A block's place in it.
#[inline(always)]
pub fn place(block: usize) -> Range<usize> {
    let begin = BEGINS[block - 1];
    begin..begin + TOTAL[block - 1] - NAME - CRC
}

#[cfg(test)]
mod tests {
    use super::*;
    use crate::generator::{self, Random};

    /// The numbers and totals that 01 and 02 write are those of the rows.
    #[test]
    fn totals() {
        assert_eq!(TOTAL, [30, 34, 20, 26, 33, 25, 48, 18, 18, 26, 93, 22]);
        assert_eq!((BLOCKS, GPOS_TOTAL), ([1, 2, 3, 4, 5, 6, 7, 11, 12], 26));
        assert_eq!((FRAME, HOST_FRAME), (93, 48));
        assert!((1..=SETS).all(|number| set_named(row(number).set) == Some(number)));
        let got = |number| get_named(row(number).get().first_chunk().expect("four letters"));
        assert!((1..=SETS).all(|number| got(number) == BLOCKS.contains(&number).then_some(number)));
    }

    /// "array elements count as fields one by one": the first bad field of ctl and of joy, as more and more fields before it are bad too.
    #[test]
    fn one_by_one() {
        assert_eq!((row(11).fields.len(), row(12).fields.len()), (33, 6));
        let mut data = row(11).fresh();
        // micro shift, flags, and the speeds from the tenth to the first
        for (at, field) in [(77, 33), (70, 31), (39, 10), (35, 9), (3, 1)] {
            data[at] = 0x7F;
            assert_eq!(bad_field(11, &data), field);
        }
        data = row(12).fresh();
        for (at, field) in [(8, 6), (5, 3), (3, 2), (1, 1)] {
            data[at] = 0x7F;
            assert_eq!(bad_field(12, &data), field);
        }
    }

    /// The rules, which come after all ranges.
    #[test]
    fn rules() {
        let control = |speed: u8, part: u8, flags: u8| {
            let mut data = vec![0; 78];
            (data[0], data[40], data[70]) = (speed, part, flags);
            bad_field(11, &data)
        };
        assert_eq!([control(0, 0, 0), control(1, 0, 0), control(0, 1, 0), control(1, 1, 0)], [RULE, 0, 0, 0]);
        assert_eq!([control(0, 0, 16), control(1, 0, 16)], [31, 31]);
        // A high byte of the first speed will do; another speed or another part will not.
        for (at, bad) in [(1, 0), (2, 0), (4, RULE), (38, RULE), (41, RULE), (49, RULE)] {
            let mut data = vec![0; 78];
            data[at] = 1;
            assert_eq!(bad_field(11, &data), bad);
        }
        let stick = |low: u16, centre: u16, high: u16| {
            bad_field(12, &[low.to_le_bytes(), centre.to_le_bytes(), high.to_le_bytes(), [0; 2], [0; 2]].concat())
        };
        for (low, centre, high) in [(0, 0, 0), (0, 256, 256), (255, 256, 10_000), (10_000, 10_000, 10_000)] {
            assert_eq!(stick(low, centre, high), 0);
        }
        for (low, centre, high) in [(1, 0, 10_000), (256, 255, 256), (0, 256, 255), (10_000, 10_000, 9999), (2, 1, 0)] {
            assert_eq!(stick(low, centre, high), RULE);
        }
        assert_eq!([stick(10_001, 0, 0), stick(1, 0, 10_001), stick(1, 10_001, 0)], [1, 3, 2]);
    }

    /// The places of the blocks, one behind the other from 0 to the table's end.
    #[test]
    fn places() {
        assert_eq!(BLOCKS.map(place), [0..24, 24..52, 52..66, 66..86, 86..113, 113..132, 132..174, 174..261, 261..277]);
        assert_eq!(TABLE, 277);
    }

    /// "On a fresh board every field is 0, or the smallest allowed value where 0 is not allowed"; of ctl "the first speed is 1".
    #[test]
    fn fresh_data() {
        let smallest = [(1, 5, 1), (1, 7, 1), (2, 2, 15), (2, 4, 1), (2, 13, 1), (2, 14, 1), (11, 0, 1)];
        for number in BLOCKS {
            let mut data = vec![0; row(number).used()];
            smallest.iter().filter(|case| case.0 == number).for_each(|case| data[case.1] = case.2);
            assert_eq!(row(number).fresh(), data);
        }
    }

    #[test]
    fn eight_bytes() {
        let signed = Field::Whole(8, i64::MIN as i128, i64::MAX as i128);
        let unsigned = Field::Whole(8, 0, u64::MAX as i128);
        assert_eq!(signed.bounds(), (-0x8000_0000_0000_0000, 0x7FFF_FFFF_FFFF_FFFF));
        assert_eq!(unsigned.bounds(), (0, 0xFFFF_FFFF_FFFF_FFFF));
        let narrow = Field::Whole(8, i64::MIN as i128 + 1, -1);
        let positive = Field::Whole(8, 1, u64::MAX as i128 - 1);
        // Bits, and whether the narrow and the positive one take them.
        let cases = [(0, false, false), (1, false, true), (1 << 63, false, true), (1 << 63 | 1, true, true), (u64::MAX, true, false)];
        for (bits, below, above) in cases {
            let bytes = u64::to_le_bytes(bits);
            assert!(signed.takes(&bytes) && unsigned.takes(&bytes));
            assert_eq!((narrow.takes(&bytes), positive.takes(&bytes)), (below, above));
        }
        assert!(Field::Flags(8, 1 << 63).takes(&(1_u64 << 63).to_le_bytes()));
        assert!(!Field::Flags(8, !(1 << 63)).takes(&(1_u64 << 63).to_le_bytes()));
    }

    /// Written out or by a loop, the first bad field is the same.
    #[test]
    fn first_bad_field() {
        let mut random = Random(1);
        for round in 0..10_000 {
            let number = generator::any_set(&mut random);
            let data = generator::data(&mut random, number, round % 4);
            assert_eq!(bad_field(number, &data), row(number).bad_fields(&data).first().copied().unwrap_or(0));
        }
    }
}
