//! Firm steps of one to four actions, by trying every order.
use crate::compare;
use crate::problem::{Action, Effect, Problem};

extern "C" {
    fn bridge_try(width: u32, rounds: u32) -> u64;
}

fn set_up() -> Problem {
    let mut actions = Vec::new();
    let mut effects = Vec::new();
    for i in 0..16 {
        let own = 4 * i;
        actions.push(Action { precondition: 1 << own, first_effect: effects.len() });
        effects.push(Effect { condition: 0, add: 2 << own, delete: 0 });
        effects.push(Effect { condition: 1 << own, add: 4 << own, delete: 8 << own });
    }
    Problem { atoms: 64, hands: 4, first: 0, actions, effects }
}

fn plain(problem: &Problem, width: u32, rounds: u32) -> u64 {
    let state: u64 = 0x9999_9999_9999_9999;
    let mut sum: u64 = 0;
    for i in 0..rounds {
        let step: u64 = (0xf >> (4 - width % 5)) << (i % 12);
        if !problem.is_step(step) {
            sum = sum.wrapping_add(3);
            continue;
        }
        match problem.try_step(state ^ sum & 2, step) {
            Some(end) => sum = sum.wrapping_add(end),
            None => sum = sum.wrapping_add(1),
        }
    }
    sum
}

pub fn run() {
    let problem = set_up();
    for width in 1..=4 {
        let rounds = 3_000_000 / [1, 4, 18, 96][width as usize - 1];
        compare(
            &format!("try, firm steps of {width}"),
            || unsafe { bridge_try(width, rounds) },
            || plain(&problem, width, rounds),
        );
    }
}
