//! Both receivers on tables as flash may have them.

use crate::counts::Counts;
use rivertosku::board::Board;
use rivertosku::fault::Fault;
use rivertosku::generator::{self, Random};
use rivertosku::same;
use rivertosku::second::Second;

/// Both take a table back; what differs.
pub fn take_back(table: &[u8], fault: Fault, counts: &mut Counts) -> Result<(Board, Second), String> {
    let (number, board, second) = same::take_back(table, fault)?;
    counts.take_back(number);
    Ok((board, second))
}

/// A stored table taken back by both, and each of its blocks looked at; what differs.
pub fn stored(random: &mut Random, fault: Fault, counts: &mut Counts) -> Result<(), String> {
    let table = generator::stored(random);
    take_back(&table, fault, counts)?;
    counts.viewed += 1;
    same::view(&table, fault)
}
