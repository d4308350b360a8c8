//! A plain forward search over firm steps, breadth first.
use crate::problem::Problem;
use crate::sets::{inside, meets};
use std::collections::HashSet;

pub enum Found {
    Steps(u32),
    Nothing,
    /// More states than the search may remember.
    Full,
}

struct Search<'a> {
    problem: &'a Problem,
    need: u64,
    avoid: u64,
    seen: HashSet<u64>,
    reached: Vec<u64>,
}

impl Search<'_> {
    /// Remembers a state, unless it was reached before: whether it is a new one that meets the goal.
    fn remember(&mut self, state: u64) -> bool {
        if !self.seen.insert(state) {
            return false;
        }
        self.reached.push(state);
        meets(state, self.need, self.avoid)
    }

    /// Takes out of a state each firm step that has `step` and, besides, only actions from `from` on, up to the goal. A part of a
    /// firm step is firm, so only firm steps are made wider.
    fn grow(&mut self, state: u64, step: u64, from: usize) -> bool {
        if step.count_ones() == self.problem.hands {
            return false;
        }
        for k in from..self.problem.actions.len() {
            if !inside(self.problem.actions[k].precondition, state) {
                continue;
            }
            let wider = step | 1 << k;
            let Some(end) = self.problem.try_step(state, wider) else {
                continue;
            };
            if self.remember(end) || self.grow(state, wider, k + 1) {
                return true;
            }
        }
        false
    }
}

/// The number of steps of a shortest firm run to the goal, with at most so many states to remember.
pub fn search(problem: &Problem, need: u64, avoid: u64, limit: u32, most: usize) -> Found {
    let mut search = Search { problem, need, avoid, seen: HashSet::new(), reached: Vec::new() };
    if search.remember(problem.first) {
        return Found::Steps(0);
    }
    for steps in 1..=limit {
        for state in std::mem::take(&mut search.reached) {
            if search.grow(state, 0, 0) {
                return Found::Steps(steps);
            }
            if search.seen.len() > most {
                return Found::Full;
            }
        }
    }
    Found::Nothing
}
