//! All 33 levels of planning graphs, by the same masks, and what a level bars.
use crate::problem::{change_in, Action, Effect, Problem};
use crate::sets::{all_below, inside, members};
use crate::{compare, scatter};

extern "C" {
    fn bridge_graph(seed: u64, rounds: u32) -> u64;
}

fn one_of(x: u64) -> u64 {
    1 << ((x >> 8) % 64)
}

/// A scattered problem with 64 atoms and 64 actions of 8 effects.
pub fn scattered(seed: u64) -> Problem {
    let mut actions = vec![Action::default(); 64];
    let mut effects = vec![Effect::default(); 512];
    let mut x = seed;
    for i in 0..64 {
        x = scatter(x);
        actions[i] = Action { precondition: one_of(x), first_effect: 8 * i };
        for j in 0..8 {
            x = scatter(x);
            let condition = if j == 0 { 0 } else { one_of(x) };
            let add = one_of(scatter(x));
            let delete = one_of(scatter(x ^ 1)) & !add;
            effects[8 * i + j] = Effect { condition, add, delete };
        }
    }
    Problem { atoms: 64, hands: 4, first: scatter(seed ^ 5) & scatter(seed ^ 6) & scatter(seed ^ 7), actions, effects }
}

type Rows = [u64; 64];

#[derive(Clone, PartialEq)]
struct Layer {
    facts: u64,
    exclusive: Rows,
}

/// What each action needs, uses and surely deletes, and for each atom the actions that do.
struct Links {
    needs: Rows,
    uses: Rows,
    deletes: Rows,
    needers: Rows,
    users: Rows,
    deleters: Rows,
}

struct Clashes {
    actions: Rows,
    noops: Rows,
}

struct Nodes {
    actions: u64,
    noops: u64,
}

fn union_of(rows: &Rows, of: u64) -> u64 {
    members(of).fold(0, |all, k| all | rows[k])
}

fn common_of(rows: &Rows, of: u64, start: u64) -> u64 {
    members(of).fold(start, |all, k| all & rows[k])
}

fn meeting(rows: &Rows, set: u64) -> u64 {
    (0..64).filter(|&k| rows[k] & set != 0).fold(0, |all, k| all | 1 << k)
}

fn turned(rows: &Rows) -> Rows {
    std::array::from_fn(|k| meeting(rows, 1 << k))
}

fn links_of(problem: &Problem) -> Links {
    let mut needs = [0; 64];
    let mut uses = [0; 64];
    let mut deletes = [0; 64];
    for (k, action) in problem.actions.iter().enumerate() {
        let always = change_in(problem.effects_of(k), 0);
        let ever = change_in(problem.effects_of(k), u64::MAX);
        needs[k] = action.precondition;
        uses[k] = action.precondition | always.add & !ever.delete;
        deletes[k] = always.delete & !ever.add;
    }
    Links { needers: turned(&needs), users: turned(&uses), deleters: turned(&deletes), needs, uses, deletes }
}

fn supports_of(problem: &Problem, layer: &Layer) -> Rows {
    let mut rows = [0; 64];
    for (k, action) in problem.actions.iter().enumerate() {
        for e in problem.effects_of(k) {
            let set = action.precondition | e.condition;
            if inside(set, layer.facts) && union_of(&layer.exclusive, set) & set == 0 {
                rows[k] |= e.add;
            }
        }
    }
    rows
}

fn touching(links: &Links, uses: u64, deletes: u64, barred: u64) -> u64 {
    union_of(&links.users, deletes) | union_of(&links.deleters, uses) | union_of(&links.needers, barred)
}

fn clashes_of(links: &Links, layer: &Layer) -> Clashes {
    let mut clashes = Clashes { actions: [0; 64], noops: [0; 64] };
    for k in 0..64 {
        let barred = union_of(&layer.exclusive, links.needs[k]);
        clashes.actions[k] = touching(links, links.uses[k], links.deletes[k], barred) & !(1 << k);
        clashes.noops[k] = links.deletes[k] | barred;
    }
    clashes
}

fn stopped_by_noop(links: &Links, layer: &Layer, atom: usize) -> Nodes {
    if layer.facts >> atom & 1 == 0 {
        return Nodes { actions: u64::MAX, noops: u64::MAX };
    }
    let barred = layer.exclusive[atom];
    Nodes { actions: touching(links, 1 << atom, 0, barred), noops: barred & !(1 << atom) }
}

fn next(problem: &Problem, links: &Links, layer: &Layer) -> Layer {
    let supports = supports_of(problem, layer);
    let facts = layer.facts | union_of(&supports, u64::MAX);
    let clashes = clashes_of(links, layer);
    let mut exclusive = [0; 64];
    for atom in members(facts) {
        let stopped = stopped_by_noop(links, layer, atom);
        let supporters = meeting(&supports, 1 << atom);
        let beaten = common_of(&clashes.actions, supporters, stopped.actions);
        let beaten_noops = common_of(&clashes.noops, supporters, stopped.noops);
        exclusive[atom] = facts & !(union_of(&supports, !beaten) | layer.facts & !beaten_noops);
    }
    Layer { facts, exclusive }
}

pub struct Graph {
    all: u64,
    levels: Vec<Layer>,
}

impl Graph {
    pub fn build(problem: &Problem) -> Graph {
        let links = links_of(problem);
        let mut levels = vec![Layer { facts: problem.first, exclusive: [0; 64] }];
        for n in 0..32 {
            levels.push(next(problem, &links, &levels[n]));
        }
        Graph { all: all_below(problem.atoms as usize), levels }
    }

    /// The least level that is like the next one.
    pub fn closing(&self) -> Option<u8> {
        (0..32).find(|&n| self.levels[n as usize] == self.levels[n as usize + 1])
    }

    fn barred_with(&self, level: u8, atom: usize) -> u64 {
        let layer = &self.levels[level as usize];
        if layer.facts >> atom & 1 == 0 {
            return self.all;
        }
        self.all & !(layer.facts & !layer.exclusive[atom])
    }

    /// Whether a set holds a pair that is barred at a level.
    pub fn holds_barred(&self, level: u8, set: u64) -> bool {
        members(set).any(|atom| self.barred_with(level, atom) & set != 0)
    }
}

fn plain(seed: u64, rounds: u32) -> u64 {
    let mut sum: u64 = 0;
    for i in 0..rounds {
        let graph = Graph::build(&scattered(seed + u64::from(i)));
        for (n, layer) in graph.levels.iter().enumerate() {
            sum = sum.wrapping_add(layer.facts).wrapping_add(layer.exclusive[2 * n % 64]);
        }
    }
    sum
}

pub fn run() {
    compare("building planning graphs", || unsafe { bridge_graph(11, 40) }, || plain(11, 40));
}
