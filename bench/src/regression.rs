//! Which positions a step makes due below a goal: nodes on a stack, split until the step is judged.
use crate::judging::{hopeless, judge, surely, Region, Verdict};
use crate::problem::Problem;
use crate::sets::{all_below, members};

/// The steps that have all of the actions `chosen` and otherwise only some of `candidates`, from the states of `region`.
#[derive(Clone, Copy)]
pub struct Node {
    chosen: u64,
    candidates: u64,
    region: Region,
}

enum Next {
    Drop,
    Due(Region),
    Split(Node, Node),
}

/// A step, and the region from every state of which it leads into the goal.
pub struct Due {
    pub step: u64,
    pub region: Region,
}

/// The node with which work on `aim` begins.
pub fn root(problem: &Problem, aim: Region) -> Node {
    let helps = |k: &usize| problem.effects_of(*k).iter().any(|e| e.add & aim.need | e.delete & aim.avoid != 0);
    let candidates = (0..problem.actions.len()).filter(helps).fold(0, |all, k| all | 1 << k);
    Node { chosen: 0, candidates, region: Region { need: 0, avoid: 0 } }
}

fn choose(problem: &Problem, node: Node) -> Next {
    if node.chosen.count_ones() > 1 && hopeless(problem, node.chosen, node.region) {
        return Next::Drop;
    }
    let action = node.candidates.trailing_zeros();
    let candidates = node.candidates & (node.candidates - 1);
    let need = node.region.need | problem.actions[action as usize].precondition;
    let with_it = Node { chosen: node.chosen | 1 << action, candidates, region: Region { need, ..node.region } };
    Next::Split(with_it, Node { candidates, ..node })
}

/// Takes out of `avoid`, one by one, every atom without which the step still surely leads into `aim`.
fn shrink(problem: &Problem, step: u64, region: Region, aim: Region) -> Region {
    let mut shrunk = region;
    for x in members(region.avoid) {
        let fewer = Region { avoid: shrunk.avoid & !(1 << x), ..shrunk };
        if surely(problem, step, fewer, aim) {
            shrunk = fewer;
        }
    }
    shrunk
}

fn settle(problem: &Problem, chosen: u64, region: Region, aim: Region) -> Next {
    match judge(problem, chosen, region, aim) {
        Verdict::Yes => Next::Due(shrink(problem, chosen, region, aim)),
        Verdict::No => Next::Drop,
        Verdict::Ask(x) => {
            let one = |region| Node { chosen, candidates: 0, region };
            let has = Region { need: region.need | 1 << x, ..region };
            let lacks = Region { avoid: region.avoid | 1 << x, ..region };
            Next::Split(one(has), one(lacks))
        }
    }
}

fn expand(problem: &Problem, node: Node, aim: Region) -> Next {
    let Node { chosen, candidates, region } = node;
    if region.need & region.avoid != 0 || !problem.is_step(chosen) {
        return Next::Drop;
    }
    let open = candidates & all_below(problem.actions.len()) & !chosen;
    if open != 0 && chosen.count_ones() < problem.hands {
        choose(problem, Node { chosen, candidates: open, region })
    } else {
        settle(problem, chosen, region, aim)
    }
}

/// Works through the nodes from `base` on, the last first, until one makes a region due or none is left.
pub fn next_due(
    problem: &Problem,
    aim: Region,
    dismisses: impl Fn(Region) -> bool,
    nodes: &mut Vec<Node>,
    base: usize,
) -> Option<Due> {
    while nodes.len() > base {
        let node = nodes.pop()?;
        if dismisses(node.region) {
            continue;
        }
        match expand(problem, node, aim) {
            Next::Drop => {}
            Next::Due(region) => return Some(Due { step: node.chosen, region }),
            Next::Split(first, second) => {
                nodes.push(second);
                nodes.push(first);
            }
        }
    }
    None
}
