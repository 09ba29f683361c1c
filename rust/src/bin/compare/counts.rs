//! What a comparison has counted.

use rivertosku::board::{Number, TableNumber};
use rivertosku::host::Answer;

#[derive(Default)]
pub struct Counts {
    pub runs: usize,
    pub units: usize,
    /// Units by their answers: zero, errc, get, order, set, errd, errv.
    pub kinds: [usize; 7],
    /// And those whose answers are outside the host: move and movr, spos, gpos, the command zero, sets and gets of later blocks.
    pub outside: [usize; 6],
    pub calls: usize,
    pub numbers: [usize; 4],
    pub bytes: usize,
    /// Reports of the time, those that dropped something, and those refused.
    pub reports: usize,
    pub dropped: usize,
    pub unreported: usize,
    /// Reports of the position, and those refused by 3 and 5.
    pub positions: usize,
    pub unplaced: [usize; 2],
    /// Tables handed out, and those refused by 2 and 3.
    pub handed: usize,
    pub unhanded: [usize; 2],
    /// Tables taken back, and those refused by 1 and 3; tables of which each block was looked at.
    pub taken: usize,
    pub untaken: [usize; 2],
    pub viewed: usize,
    /// Requests written, and those refused by 3 and 4.
    pub written: usize,
    pub unwritten: [usize; 2],
    /// Answers read, and slices refused by 5 to 8.
    pub read: usize,
    pub unread: [usize; 4],
}

impl Counts {
    pub fn call(&mut self, number: Number, taken: usize, units: usize) {
        self.calls += 1;
        self.units += units;
        self.numbers[number as usize] += 1;
        self.bytes += taken;
    }

    pub fn report(&mut self, number: Number, dropped: bool) {
        self.reports += 1;
        self.dropped += dropped as usize;
        self.unreported += (number != Number::Accepted) as usize;
    }

    pub fn position_report(&mut self, number: Number) {
        self.positions += 1;
        self.unplaced[0] += (number == Number::Unsound) as usize;
        self.unplaced[1] += (number == Number::MicrostepsOutOfRange) as usize;
    }

    pub fn hand_out(&mut self, said: &Result<Vec<u8>, TableNumber>) {
        self.handed += said.is_ok() as usize;
        self.unhanded[0] += (*said == Err(TableNumber::OutTooSmall)) as usize;
        self.unhanded[1] += (*said == Err(TableNumber::Unsound)) as usize;
    }

    pub fn take_back(&mut self, number: TableNumber) {
        self.taken += (number == TableNumber::Accepted) as usize;
        self.untaken[0] += (number == TableNumber::AnotherLength) as usize;
        self.untaken[1] += (number == TableNumber::Unsound) as usize;
    }

    pub fn answer(&mut self, answer: &Answer) {
        self.kinds[kind(answer)] += 1;
    }

    pub fn show(&self, seed: u64) {
        let [_, one, two, three] = self.numbers;
        let [zero, errc, get, order, set, errd, errv] = self.kinds;
        let [travel, spos, gpos, clear, later_set, later_get] = self.outside;
        let [unsound, wide] = self.unplaced;
        let [small, unsound_out] = self.unhanded;
        let [another_length, unsound_back] = self.untaken;
        let [out_of_range, too_short] = self.unwritten;
        let [no_name, no_answer, cut, damaged] = self.unread;
        println!(
            "compared {} units ({set} sets, {get} gets, {order} orders, {travel} moves, {spos} spos, {gpos} gpos, {clear} zero, \
             {later_set} sets and {later_get} gets of ctl and joy, {errv} errv, {errd} errd, {errc} errc, {zero} zeros) in {} runs, {} calls \
             of which {} refused ({one} by 1, {two} by 2, {three} by 3), {} bytes, {} reports of the time of which {} dropped something and \
             {} were refused, {} reports of the position of which {} were refused ({unsound} by 3, {wide} by 5), {} tables handed out and \
             {} refused ({small} by 2, {unsound_out} by 3), {} taken back and {} refused ({another_length} by 1, {unsound_back} by 3), {} \
             looked at, {} requests written and {} refused ({out_of_range} by 3, {too_short} by 4), {} answers read and {} refused \
             ({no_name} by 5, {no_answer} by 6, {cut} by 7, {damaged} by 8), seed {seed}",
            self.units,
            self.runs,
            self.calls,
            one + two + three,
            self.bytes,
            self.reports,
            self.dropped,
            self.unreported,
            self.positions,
            unsound + wide,
            self.handed,
            small + unsound_out,
            self.taken,
            another_length + unsound_back,
            self.viewed,
            self.written,
            out_of_range + too_short,
            self.read,
            no_name + no_answer + cut + damaged,
        );
    }
}

/// Where `Counts::kinds` counts an answer.
fn kind(answer: &Answer) -> usize {
    match answer {
        Answer::Zero => 0,
        Answer::Errc => 1,
        Answer::Data(_) => 2,
        Answer::OrderEcho(_) => 3,
        Answer::SetEcho(_) => 4,
        Answer::Errd => 5,
        Answer::Errv => 6,
    }
}
