//! Planning problems of well-known kinds.
use crate::planner::Question;
use crate::problem::{Action, Effect, Problem};

/// A problem with a question about it.
pub struct Task {
    pub name: String,
    pub problem: Problem,
    pub question: Question,
}

/// A precondition, and effects.
type Deed = (u64, Vec<Effect>);

/// A problem that is being put together.
#[derive(Default)]
struct Draft {
    atoms: u32,
    actions: Vec<Action>,
    effects: Vec<Effect>,
}

impl Draft {
    /// So many atoms more, each as a set of its own.
    fn atoms(&mut self, count: usize) -> Vec<u64> {
        let first = self.atoms;
        self.atoms += count as u32;
        assert!(self.atoms <= 64, "too many atoms");
        (first..self.atoms).map(|k| 1 << k).collect()
    }

    /// A table of atoms.
    fn table(&mut self, rows: usize, columns: usize) -> Vec<Vec<u64>> {
        (0..rows).map(|_| self.atoms(columns)).collect()
    }

    fn actions(&mut self, deeds: impl Iterator<Item = Deed>) {
        for (precondition, effects) in deeds {
            self.actions.push(Action { precondition, first_effect: self.effects.len() });
            self.effects.extend_from_slice(&effects);
            assert!(self.actions.len() <= 64 && effects.len() <= 8, "too many actions or effects");
        }
    }

    /// The problem with these actions, and the question how to come to `need`.
    fn task(self, name: String, hands: u32, first: u64, need: u64) -> Task {
        let problem = Problem { atoms: self.atoms, hands, first, actions: self.actions, effects: self.effects };
        Task { name, problem, question: Question { need, avoid: 0, limit: 32, budget: 1_000_000 } }
    }
}

fn pairs(n: usize, m: usize) -> impl Iterator<Item = (usize, usize)> {
    (0..n * m).map(move |i| (i / m, i % m))
}

fn union(sets: impl Iterator<Item = u64>) -> u64 {
    sets.fold(0, |all, set| all | set)
}

/// The atoms that say of each thing which place it has.
fn placed(table: &[Vec<u64>], places: &[usize]) -> u64 {
    union(table.iter().zip(places).map(|(row, &place)| row[place]))
}

fn always(add: u64, delete: u64) -> Effect {
    Effect { condition: 0, add, delete }
}

/// Blocks on a table: `first` and `last` say what each block stands on, a block or, by the number of blocks, the table.
pub fn blocks(hands: u32, first: &[usize], last: &[usize]) -> Task {
    let n = first.len();
    let mut draft = Draft::default();
    let on = draft.table(n, n + 1);
    let mut clear = draft.atoms(n);
    // the table has room for every block
    clear.push(0);
    let lift = |x: usize, from: usize| Effect { condition: on[x][from], add: clear[from], delete: on[x][from] };
    let move_to = |(x, to): (usize, usize)| {
        let lifts = (0..=n).filter(|&from| from != x && from != to).map(|from| lift(x, from));
        (clear[x] | clear[to], std::iter::once(always(on[x][to], clear[to])).chain(lifts).collect())
    };
    draft.actions(pairs(n, n + 1).filter(|(x, to)| x != to).map(move_to));
    let tops = union((0..n).filter(|x| !first.contains(x)).map(|x| clear[x]));
    draft.task(format!("blocks, {n} with {hands} hands"), hands, placed(&on, first) | tops, placed(&on, last))
}

/// A robot with two grippers carries balls from one room to the other.
pub fn gripper(hands: u32, balls: usize) -> Task {
    let mut draft = Draft::default();
    let at = draft.table(balls, 2);
    let held = draft.table(balls, 2);
    let free = draft.atoms(2);
    let robot = draft.atoms(2);
    let go = |room: usize| (robot[room], vec![always(robot[1 - room], robot[room])]);
    let pick = |ball: usize, room: usize, hand: usize| {
        let lying = at[ball][room] | free[hand];
        (robot[room] | lying, vec![always(held[ball][hand], lying)])
    };
    let put = |ball: usize, room: usize, hand: usize| {
        let lying = at[ball][room] | free[hand];
        (robot[room] | held[ball][hand], vec![always(lying, held[ball][hand])])
    };
    let uses = |(ball, i): (usize, usize)| [pick(ball, i / 2, i % 2), put(ball, i / 2, i % 2)];
    draft.actions((0..2).map(go).chain(pairs(balls, 4).flat_map(uses)));
    let start = placed(&at, &vec![0; balls]) | robot[0] | free[0] | free[1];
    draft.task(format!("gripper, {balls} balls with {hands} hands"), hands, start, placed(&at, &vec![1; balls]))
}

/// A briefcase takes along what is in it: `first` and `last` say where each thing is; the briefcase comes back.
pub fn briefcase(hands: u32, places: usize, first: &[usize], last: &[usize]) -> Task {
    let things = first.len();
    let mut draft = Draft::default();
    let at = draft.table(things, places);
    let within = draft.atoms(things);
    let case = draft.atoms(places);
    let bring = |(from, to): (usize, usize)| {
        let taken = (0..things).map(|x| Effect { condition: within[x], add: at[x][to], delete: at[x][from] });
        (case[from], std::iter::once(always(case[to], case[from])).chain(taken).collect())
    };
    let put_in = |(x, place): (usize, usize)| (case[place] | at[x][place], vec![always(within[x], 0)]);
    let take_out = |x: usize| (within[x], vec![always(0, within[x])]);
    draft.actions(pairs(places, places).filter(|(from, to)| from != to).map(bring));
    draft.actions(pairs(things, places).map(put_in).chain((0..things).map(take_out)));
    let name = format!("briefcase, {things} things in {places} places with {hands} hands");
    draft.task(name, hands, placed(&at, first) | case[0], placed(&at, last) | case[0])
}

/// Properties of a piece in a machine shop.
const COLD: usize = 0;
pub const ROUND: usize = 1;
pub const SMOOTH: usize = 2;
pub const PAINTED: usize = 3;
pub const DRILLED: usize = 4;
const PROPERTIES: usize = 5;

/// What a machine does to a piece: it asks for some properties, gives one, and spoils others.
struct Machine {
    asks: &'static [usize],
    gives: usize,
    spoils: &'static [usize],
}

const MACHINES: [Machine; 6] = [
    // a roller makes a piece hot, for good
    Machine { asks: &[], gives: ROUND, spoils: &[COLD, SMOOTH, PAINTED, DRILLED] },
    Machine { asks: &[COLD], gives: ROUND, spoils: &[SMOOTH, PAINTED] },
    Machine { asks: &[COLD], gives: SMOOTH, spoils: &[PAINTED] },
    Machine { asks: &[ROUND], gives: SMOOTH, spoils: &[] },
    Machine { asks: &[COLD], gives: PAINTED, spoils: &[] },
    Machine { asks: &[COLD], gives: DRILLED, spoils: &[SMOOTH] },
];

/// A machine shop: `wanted` says which properties each piece is to have. In one shift a machine works on one piece, and one
/// machine on a piece.
pub fn shop(hands: u32, wanted: &[&[usize]]) -> Task {
    let pieces = wanted.len();
    let mut draft = Draft::default();
    let has = draft.table(pieces, PROPERTIES);
    let waits = draft.atoms(pieces);
    let idle = draft.atoms(MACHINES.len());
    let all_of = |piece: usize, properties: &[usize]| union(properties.iter().map(|&p| has[piece][p]));
    let work = |(piece, m): (usize, usize)| {
        let Machine { asks, gives, spoils } = MACHINES[m];
        let unused = waits[piece] | idle[m];
        (unused | all_of(piece, asks), vec![always(has[piece][gives], unused | all_of(piece, spoils))])
    };
    let new_shift = union(waits.iter().chain(&idle).copied());
    let change_shifts = (0, vec![always(new_shift, 0)]);
    draft.actions(pairs(pieces, MACHINES.len()).map(work).chain([change_shifts]));
    let cold = union(has.iter().map(|row| row[COLD]));
    let need = union((0..pieces).map(|piece| all_of(piece, wanted[piece])));
    draft.task(format!("machine shop, {pieces} pieces with {hands} hands"), hands, new_shift | cold, need)
}
