//! Problems in plain Rust: what an action does, and firm steps by trying every order.

#[derive(Clone, Copy, Default)]
pub struct Effect {
    pub condition: u64,
    pub add: u64,
    pub delete: u64,
}

#[derive(Clone, Copy, Default)]
pub struct Action {
    pub precondition: u64,
    pub first_effect: usize,
}

pub struct Problem {
    pub atoms: u32,
    pub hands: u32,
    pub first: u64,
    pub actions: Vec<Action>,
    pub effects: Vec<Effect>,
}

pub struct Change {
    pub add: u64,
    pub delete: u64,
}

pub fn change_in(effects: &[Effect], state: u64) -> Change {
    let mut change = Change { add: 0, delete: 0 };
    for e in effects.iter().filter(|e| e.condition & !state == 0) {
        change.add |= e.add;
        change.delete |= e.delete;
    }
    change
}

impl Problem {
    pub fn effects_of(&self, k: usize) -> &[Effect] {
        let past = self.actions.get(k + 1).map_or(self.effects.len(), |a| a.first_effect);
        &self.effects[self.actions[k].first_effect..past]
    }

    fn after(&self, state: u64, k: usize) -> u64 {
        let change = change_in(self.effects_of(k), state);
        (state | change.add) & !change.delete
    }

    fn turn(&self, start: u64, state: u64, k: usize) -> Option<u64> {
        let alike = |e: &Effect| (e.condition & !start == 0) == (e.condition & !state == 0);
        let runs = self.actions[k].precondition & !state == 0 && self.effects_of(k).iter().all(alike);
        runs.then(|| self.after(state, k))
    }

    fn every_order(&self, start: u64, state: u64, remaining: u64, end: u64) -> bool {
        if remaining == 0 {
            return state == end;
        }
        let mut left = remaining;
        while left != 0 {
            let k = left.trailing_zeros();
            match self.turn(start, state, k as usize) {
                Some(next) if self.every_order(start, next, remaining & !(1 << k), end) => {}
                _ => return false,
            }
            left &= left - 1;
        }
        true
    }

    pub fn is_step(&self, step: u64) -> bool {
        let known = self.actions.len() == 64 || step >> self.actions.len() == 0;
        known && step.count_ones() <= self.hands
    }

    /// Where a firm step ends.
    pub fn try_step(&self, state: u64, step: u64) -> Option<u64> {
        let mut end = state;
        let mut left = step;
        while left != 0 {
            end = self.after(end, left.trailing_zeros() as usize);
            left &= left - 1;
        }
        self.every_order(state, state, step, end).then_some(end)
    }
}
