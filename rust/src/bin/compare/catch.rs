//! The comparison with receivers and hosts that are wrong, each to be caught.

use crate::{compare, show};
use rivertosku::fault::Fault;
use std::process::ExitCode;

/// Compares with the wrong one of this name, or with all.
pub fn catch(name: &str, seed: u64, units: usize, shown: bool) -> ExitCode {
    let faults: Vec<Fault> = Fault::ALL.iter().copied().filter(|f| name == "all" || f.name() == name).collect();
    if faults.is_empty() {
        eprintln!("no fault named {name}; there are:");
        Fault::ALL.iter().for_each(|f| eprintln!("  {}", f.name()));
        return ExitCode::from(2);
    }
    let mut all_caught = true;
    for fault in faults {
        match compare(seed, units, fault) {
            (counts, Err(failed)) => {
                println!("caught {} after {} units", fault.name(), counts.units);
                if shown {
                    show(failed, fault);
                }
            }
            (counts, Ok(())) => {
                println!("not caught {} in {} units", fault.name(), counts.units);
                all_caught = false;
            }
        }
    }
    if all_caught {
        ExitCode::SUCCESS
    } else {
        ExitCode::FAILURE
    }
}
