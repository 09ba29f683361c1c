//! The shortest run on which the two still disagree.

use crate::counts::Counts;
use crate::play::{play, Miss};
use crate::run::Run;
use rivertosku::fault::Fault;

/// The run with some steps dropped, or its start.
fn fewer_steps(run: &Run) -> Vec<Run> {
    let mut tries = vec![Run { start: None, ..run.clone() }];
    tries.retain(|_| run.start.is_some());
    let steps = run.steps.len();
    for size in [steps / 2, steps / 4, 2, 1] {
        for from in (0..steps).step_by(size.max(1)) {
            if size > 0 && size < steps && from + size <= steps {
                let mut less = run.clone();
                less.steps.drain(from..from + size);
                tries.push(less);
            }
        }
    }
    tries
}

/// The run with an event or bytes of a step dropped, or the next step joined to it, less its events.
fn shorter_step(run: &Run, i: usize) -> Vec<Run> {
    let mut tries = vec![];
    for event in 0..run.steps[i].events.len() {
        let mut less = run.clone();
        less.steps[i].events.remove(event);
        tries.push(less);
    }
    let n = run.steps[i].piece.len();
    for size in [n / 2, n / 4, n / 8, 2, 1] {
        for from in (0..n).step_by(size.max(1)) {
            if size > 0 && from + size <= n {
                let mut less = run.clone();
                less.steps[i].piece.drain(from..from + size);
                tries.push(less);
            }
        }
    }
    if i + 1 < run.steps.len() && run.steps[i].change.is_none() && run.steps[i + 1].change.is_none() {
        let mut less = run.clone();
        let next = less.steps.remove(i + 1);
        less.steps[i].piece.extend(next.piece);
        tries.push(less);
    }
    tries
}

/// The shortest failing run that dropping calls, events and bytes leads to.
pub fn shortest(mut run: Run, fault: Fault) -> (Run, Miss) {
    let fails = |run: &Run| play(run, fault, &mut Counts::default()).err();
    let mut miss = fails(&run).expect("it failed before");
    loop {
        run.steps.truncate(miss.step + 1);
        let mut tries = fewer_steps(&run);
        for i in 0..run.steps.len() {
            tries.extend(shorter_step(&run, i));
        }
        match tries.into_iter().find_map(|less| fails(&less).map(|miss| (less, miss))) {
            Some((less, next)) => (run, miss) = (less, next),
            None => return (run, miss),
        }
    }
}
