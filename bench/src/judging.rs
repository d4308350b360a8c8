//! Whether a step leads from every state of a region into a goal, from none, or what to ask first.
use crate::problem::{change_in, Effect, Problem};
use crate::sets::members;

/// The states that hold all of `need` and nothing of `avoid`.
#[derive(Clone, Copy)]
pub struct Region {
    pub need: u64,
    pub avoid: u64,
}

#[derive(Clone, Copy, PartialEq)]
pub enum Verdict {
    Yes,
    No,
    Ask(u32),
}

use Verdict::{Ask, No, Yes};

impl Verdict {
    fn and(self, other: Verdict) -> Verdict {
        match (self, other) {
            (Yes, _) => other,
            (_, No) => No,
            _ => self,
        }
    }
}

fn ask_for(ask: u64) -> Verdict {
    if ask == 0 {
        No
    } else {
        Ask(ask.trailing_zeros())
    }
}

/// What is in a set in every state between two masks, and what is in it in any of them.
#[derive(Clone, Copy, Default)]
struct Bounds {
    sure: u64,
    may: u64,
}

/// What an action gives and deletes, and what it must find.
#[derive(Clone, Copy)]
struct Doing {
    action: usize,
    give: Bounds,
    cut: Bounds,
    read: Bounds,
}

const NO_DOING: Doing = {
    let none = Bounds { sure: 0, may: 0 };
    Doing { action: 64, give: none, cut: none, read: none }
};

/// What each action of a step does in the states between `lo` and `hi`.
struct Doings {
    lo: u64,
    hi: u64,
    rows: [Doing; 4],
}

fn read_in(effects: &[Effect], state: u64) -> u64 {
    effects.iter().filter(|e| e.condition & !state == 0).fold(0, |all, e| all | e.condition)
}

fn doing(problem: &Problem, action: usize, lo: u64, hi: u64) -> Doing {
    let effects = problem.effects_of(action);
    let precondition = problem.actions[action].precondition;
    let low = change_in(effects, lo);
    let high = change_in(effects, hi);
    Doing {
        action,
        give: Bounds { sure: low.add & !high.delete, may: high.add & !low.delete },
        cut: Bounds { sure: low.delete, may: high.delete },
        read: Bounds { sure: precondition | read_in(effects, lo), may: precondition | read_in(effects, hi) },
    }
}

impl Doings {
    fn new(problem: &Problem, step: u64, region: Region) -> Doings {
        let (lo, hi) = (region.need, !region.avoid);
        let mut rows = [NO_DOING; 4];
        for (row, action) in rows.iter_mut().zip(members(step)) {
            *row = doing(problem, action, lo, hi);
        }
        Doings { lo, hi, rows }
    }

    fn of(&self, action: usize) -> &Doing {
        self.rows.iter().find(|row| row.action == action).unwrap_or(&NO_DOING)
    }

    /// What the actions of a step give, and what they delete.
    fn totals(&self, step: u64) -> (Bounds, Bounds) {
        let mut give = Bounds::default();
        let mut cut = Bounds::default();
        for one in members(step).map(|i| self.of(i)) {
            give = Bounds { sure: give.sure | one.give.sure, may: give.may | one.give.may };
            cut = Bounds { sure: cut.sure | one.cut.sure, may: cut.may | one.cut.may };
        }
        (give, cut)
    }

    /// What the actions of a step may give to a condition of which they delete nothing for sure.
    fn help(&self, step: u64, condition: u64) -> u64 {
        let helping = members(step).map(|i| self.of(i)).filter(|one| one.cut.sure & condition == 0);
        helping.fold(0, |may, one| may | one.give.may)
    }
}

/// The effects that are looked at: they add an atom of `add`, delete one of `delete` or have one of `read` in their condition.
#[derive(Clone, Copy)]
struct Wanted {
    add: u64,
    delete: u64,
    read: u64,
}

/// What is open, between `lo` and `hi`, in the conditions of the wanted effects.
fn open_in(effects: &[Effect], lo: u64, hi: u64, wanted: Wanted) -> u64 {
    let may_fire = effects.iter().filter(|e| e.condition & !hi == 0);
    let touching = may_fire.filter(|e| e.add & wanted.add | e.delete & wanted.delete | e.condition & wanted.read != 0);
    touching.fold(0, |ask, e| ask | e.condition & !lo)
}

fn open_of(problem: &Problem, step: u64, lo: u64, hi: u64, add: u64, delete: u64) -> u64 {
    members(step).fold(0, |ask, i| ask | open_in(problem.effects_of(i), lo, hi, Wanted { add, delete, read: 0 }))
}

fn ready(precondition: u64, lo: u64, hi: u64) -> Verdict {
    let missing = precondition & !lo;
    if missing == 0 {
        return Yes;
    }
    if precondition & !hi != 0 {
        return No;
    }
    ask_for(missing & hi)
}

fn unhurt(problem: &Problem, a: &Doing, b: &Doing, lo: u64, hi: u64) -> Verdict {
    let may = (a.give.may | a.read.may) & b.cut.may;
    if may == 0 {
        return Yes;
    }
    if (a.give.sure | a.read.sure) & b.cut.sure != 0 {
        return No;
    }
    let own = may & !a.read.sure;
    let of_a = open_in(problem.effects_of(a.action), lo, hi, Wanted { add: own, delete: own, read: own });
    let of_b = open_in(problem.effects_of(b.action), lo, hi, Wanted { add: 0, delete: may, read: 0 });
    ask_for(of_a | of_b)
}

/// The verdict on many things together, up to the first No.
fn all(verdicts: impl Iterator<Item = Verdict>) -> Verdict {
    let mut verdict = Yes;
    for one in verdicts {
        verdict = verdict.and(one);
        if verdict == No {
            break;
        }
    }
    verdict
}

fn unhurt_by(problem: &Problem, doings: &Doings, a: &Doing, others: u64) -> Verdict {
    all(members(others).map(|j| unhurt(problem, a, doings.of(j), doings.lo, doings.hi)))
}

fn rest(problem: &Problem, doings: &Doings, others: u64, condition: u64) -> Verdict {
    let (lo, hi) = (doings.lo, doings.hi);
    let gain = doings.help(others, condition);
    let absent = condition & !hi;
    if absent & gain != absent {
        return Yes;
    }
    let missing = condition & !lo;
    if missing & gain == 0 {
        return Yes;
    }
    if missing & hi != 0 {
        return ask_for(missing & hi);
    }
    ask_for(open_of(problem, others, lo, hi, missing, condition))
}

fn fine(problem: &Problem, doings: &Doings, step: u64, i: usize) -> Verdict {
    let others = step & !(1 << i);
    let own = ready(problem.actions[i].precondition, doings.lo, doings.hi);
    let near = unhurt_by(problem, doings, doings.of(i), others);
    let far = all(problem.effects_of(i).iter().map(|e| rest(problem, doings, others, e.condition)));
    own.and(near.and(far))
}

fn kept(problem: &Problem, doings: &Doings, step: u64, cut: Bounds, need: u64) -> Verdict {
    let may = need & cut.may;
    if may == 0 {
        return Yes;
    }
    if need & cut.sure != 0 {
        return No;
    }
    ask_for(open_of(problem, step, doings.lo, doings.hi, 0, may))
}

fn got(problem: &Problem, doings: &Doings, step: u64, give: Bounds, need: u64) -> Verdict {
    let may = need & !doings.lo & !give.sure;
    if may == 0 {
        return Yes;
    }
    if need & !doings.hi & !give.may != 0 {
        return No;
    }
    if may & doings.hi != 0 {
        return ask_for(may & doings.hi);
    }
    ask_for(open_of(problem, step, doings.lo, doings.hi, may, may))
}

fn ungiven(problem: &Problem, doings: &Doings, step: u64, give: Bounds, avoid: u64) -> Verdict {
    let may = avoid & give.may;
    if may == 0 {
        return Yes;
    }
    if avoid & give.sure != 0 {
        return No;
    }
    ask_for(open_of(problem, step, doings.lo, doings.hi, may, may))
}

fn cleared(problem: &Problem, doings: &Doings, step: u64, cut: Bounds, avoid: u64) -> Verdict {
    let may = avoid & doings.hi & !cut.sure;
    if may == 0 {
        return Yes;
    }
    if avoid & doings.lo & !cut.may != 0 {
        return No;
    }
    let open = may & !doings.lo;
    if open != 0 {
        return ask_for(open);
    }
    ask_for(open_of(problem, step, doings.lo, doings.hi, 0, may))
}

fn reaches(problem: &Problem, doings: &Doings, step: u64, aim: Region) -> Verdict {
    let (give, cut) = doings.totals(step);
    let needed = kept(problem, doings, step, cut, aim.need).and(got(problem, doings, step, give, aim.need));
    let avoided = ungiven(problem, doings, step, give, aim.avoid).and(cleared(problem, doings, step, cut, aim.avoid));
    needed.and(avoided)
}

fn certain(problem: &Problem, doings: &Doings, step: u64, aim: Region) -> Verdict {
    let reached = reaches(problem, doings, step, aim);
    if reached == No {
        return No;
    }
    all(members(step).map(|i| fine(problem, doings, step, i))).and(reached)
}

/// Whether all that the action may do for `aim` is surely there or done by the others.
fn idle(doings: &Doings, step: u64, i: usize, aim: Region) -> bool {
    let mine = doings.of(i);
    let (give, cut) = doings.totals(step & !(1 << i));
    let given = mine.give.may & aim.need & !doings.lo & !give.sure;
    let deleted = mine.cut.may & aim.avoid & doings.hi & !cut.sure;
    given | deleted == 0
}

/// Whether a step leads from the states of `region` into `aim`, with no idle action.
pub fn judge(problem: &Problem, step: u64, region: Region, aim: Region) -> Verdict {
    let doings = Doings::new(problem, step, region);
    if members(step).any(|i| idle(&doings, step, i, aim)) {
        return No;
    }
    certain(problem, &doings, step, aim)
}

/// Whether a step surely leads from the states of `region` into `aim`.
pub fn surely(problem: &Problem, step: u64, region: Region, aim: Region) -> bool {
    certain(problem, &Doings::new(problem, step, region), step, aim) == Yes
}

/// Whether the chosen actions surely hurt one another.
pub fn hopeless(problem: &Problem, chosen: u64, region: Region) -> bool {
    let doings = Doings::new(problem, chosen, region);
    let each = members(chosen).map(|i| unhurt_by(problem, &doings, doings.of(i), chosen & !(1 << i)));
    all(each) == No
}
