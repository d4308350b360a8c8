//! All positions that steps make due below a goal, in a problem with 64 atoms and 64 actions of 8 effects.
use crate::graph::scattered;
use crate::judging::Region;
use crate::planner::Question;
use crate::problem::Problem;
use crate::race;
use crate::regression::{next_due, root, Due};
use crate::text::{next_question, read, write_problem, write_question};
use std::cell::Cell;

#[derive(Clone, Copy, Debug, Default, PartialEq)]
#[repr(C)]
struct Worked {
    due: u64,
    sum: u64,
}

extern "C" {
    fn bridge_regression(text: *const u8, len: usize) -> Worked;
}

impl Worked {
    fn add(&mut self, due: Due) {
        let Region { need, avoid } = due.region;
        let own = (due.step ^ need.rotate_left(21) ^ avoid.rotate_left(42)).wrapping_mul(0x9e37_79b9_7f4a_7c15);
        self.due += 1;
        self.sum = self.sum.wrapping_add(own);
    }
}

fn work(problem: &Problem, aim: Region, dismisses: impl Fn(Region) -> bool) -> Worked {
    let mut nodes = vec![root(problem, aim)];
    let mut worked = Worked::default();
    while let Some(due) = next_due(problem, aim, &dismisses, &mut nodes, 0) {
        worked.add(due);
    }
    worked
}

fn plain(text: &[u8], dismisses: impl Fn(Region) -> bool) -> Worked {
    let (problem, bytes) = read(text).expect("a problem");
    let (question, _) = next_question(text, bytes).expect("no fault").expect("a question");
    work(&problem, Region { need: question.need, avoid: question.avoid }, dismisses)
}

/// How many nodes are looked at: whether one is dismissed is asked once of each.
fn nodes(text: &[u8]) -> u64 {
    let asked = Cell::new(0);
    plain(text, |_| {
        asked.set(asked.get() + 1);
        false
    });
    asked.get()
}

pub fn run() {
    let mut text = Vec::new();
    write_problem(&scattered(11), &mut text);
    write_question(&Question { need: 0x7, avoid: 0x100, limit: 1, budget: 1 }, &mut text);
    let race = race("regression", || unsafe { bridge_regression(text.as_ptr(), text.len()) }, || plain(&text, |_| false));
    let nodes = nodes(&text);
    let rate = |time: f64| nodes as f64 / time / 1e6;
    println!(
        "regression, {nodes} nodes, {} due: {:.2} times plain Rust ({:.2} million nodes a second to {:.2})",
        race.answer.due,
        race.ratio(),
        rate(race.proved),
        rate(race.plain)
    );
}
