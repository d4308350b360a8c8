//! The planner: rounds of rising level, a path of open positions, regression below the lowest, and a keeper of what was rejected.
use crate::graph::Graph;
use crate::judging::Region;
use crate::keeper::{Keeper, Position};
use crate::problem::Problem;
use crate::regression::{next_due, root, Due, Node};
use crate::sets::meets;

#[derive(Clone, Copy, Debug, PartialEq)]
pub enum Outcome {
    Plan,
    Never,
    NotWithin,
    Spent,
}

#[derive(Clone, Copy, Debug, PartialEq)]
pub struct Report {
    pub outcome: Outcome,
    pub steps: u32,
    pub opened: u32,
    pub kept: u32,
    pub passed_over: u32,
    pub left_open: u32,
}

#[derive(Clone, Copy)]
pub struct Question {
    pub need: u64,
    pub avoid: u64,
    pub limit: u8,
    pub budget: u32,
}

/// A problem with its planning graph.
pub struct Outlook<'a> {
    problem: &'a Problem,
    graph: Graph,
    closing: Option<u8>,
}

impl<'a> Outlook<'a> {
    pub fn new(problem: &'a Problem) -> Outlook<'a> {
        let graph = Graph::build(problem);
        let closing = graph.closing();
        Outlook { problem, graph, closing }
    }

    fn dropped(&self, keeper: &Keeper, position: &Position) -> bool {
        self.graph.holds_barred(position.level, position.need) || keeper.review(position)
    }

    fn dismisses(&self, level: u8, region: Region) -> bool {
        if level == 0 {
            !meets(self.problem.first, region.need, region.avoid)
        } else {
            self.graph.holds_barred(level, region.need)
        }
    }
}

/// An open position, the step that made it due, and where the work on it begins among the nodes.
struct Frame {
    position: Position,
    step: u64,
    base: usize,
}

#[derive(Default)]
struct Path {
    frames: Vec<Frame>,
    nodes: Vec<Node>,
}

enum Next {
    Found(u64),
    Opens(u64, Position),
    Done,
}

impl Path {
    fn open(&mut self, problem: &Problem, position: Position, step: u64) {
        let base = self.nodes.len();
        self.nodes.push(root(problem, Region { need: position.need, avoid: position.avoid }));
        self.frames.push(Frame { position, step, base });
    }

    fn take_due(&mut self, outlook: &Outlook, position: Position, base: usize) -> Option<Due> {
        let aim = Region { need: position.need, avoid: position.avoid };
        let dismisses = |region| outlook.dismisses(position.level - 1, region);
        next_due(outlook.problem, aim, dismisses, &mut self.nodes, base)
    }

    /// Looks for what is next below the lowest position.
    fn look(&mut self, outlook: &Outlook, keeper: &Keeper, position: Position, base: usize) -> Next {
        let level = position.level - 1;
        while let Some(Due { step, region: Region { need, avoid } }) = self.take_due(outlook, position, base) {
            let due = Position { level, need, avoid };
            if level == 0 {
                if meets(outlook.problem.first, need, avoid) {
                    return Next::Found(step);
                }
            } else if !outlook.dropped(keeper, &due) {
                return Next::Opens(step, due);
            }
        }
        Next::Done
    }
}

/// A search that is under way.
struct Search<'a> {
    outlook: &'a Outlook<'a>,
    keeper: &'a mut Keeper,
    question: Question,
    path: Path,
    opened: u32,
}

impl Search<'_> {
    /// Opens a position, unless the budget is spent.
    fn open(&mut self, position: Position, step: u64) -> Result<(), Outcome> {
        if self.opened == self.question.budget {
            return Err(Outcome::Spent);
        }
        self.path.open(self.outlook.problem, position, step);
        self.opened += 1;
        Ok(())
    }

    /// Works on the path until nothing is open: the first step of a plan, if one is found.
    fn round(&mut self) -> Result<Option<u64>, Outcome> {
        while let Some(&Frame { position, base, .. }) = self.path.frames.last() {
            match self.path.look(self.outlook, self.keeper, position, base) {
                Next::Found(step) => return Ok(Some(step)),
                Next::Opens(step, due) => self.open(due, step)?,
                Next::Done => {
                    self.keeper.tell(&position);
                    self.path.frames.pop();
                }
            }
        }
        Ok(None)
    }

    /// The first step of a plan, by rounds of rising level.
    fn rounds(&mut self) -> Result<u64, Outcome> {
        let Question { need, avoid, limit, .. } = self.question;
        for level in 1..=limit {
            let goal = Position { level, need, avoid };
            if self.outlook.dropped(self.keeper, &goal) {
                continue;
            }
            self.open(goal, 0)?;
            if let Some(step) = self.round()? {
                return Ok(step);
            }
        }
        Err(Outcome::NotWithin)
    }

    /// The steps of the plan: the first one, and then those of the frames, from the lowest up.
    fn write_plan(&self, step: u64, plan: &mut Vec<u64>) {
        plan.push(step);
        plan.extend(self.path.frames[1..].iter().rev().map(|frame| frame.step));
    }
}

/// Looks for a shortest plan.
pub fn plan(outlook: &Outlook, keeper: &mut Keeper, question: Question, plan: &mut Vec<u64>) -> Report {
    let Question { need, avoid, .. } = question;
    let mut report = Report { outcome: Outcome::Plan, steps: 0, opened: 0, kept: 0, passed_over: 0, left_open: 0 };
    if outlook.closing.is_some_and(|level| outlook.graph.holds_barred(level, need)) {
        return Report { outcome: Outcome::Never, ..report };
    }
    if meets(outlook.problem.first, need, avoid) {
        return report;
    }
    let (kept, passed) = (keeper.kept(), keeper.passed);
    let mut search = Search { outlook, keeper, question, path: Path::default(), opened: 0 };
    match search.rounds() {
        Ok(step) => search.write_plan(step, plan),
        Err(outcome) => report.outcome = outcome,
    }
    report.steps = if report.outcome == Outcome::Plan { search.path.frames.len() as u32 } else { 0 };
    report.opened = search.opened;
    report.left_open = search.path.frames.len() as u32;
    report.kept = keeper.kept() - kept;
    report.passed_over = keeper.passed - passed;
    report
}
