//! Plans for problems of well-known kinds, against the same search in plain Rust and against a forward search.
use crate::domains::{blocks, briefcase, gripper, shop, Task, DRILLED, PAINTED, ROUND, SMOOTH};
use crate::forward::{search, Found};
use crate::keeper::Keeper;
use crate::planner::{plan, Outcome, Outlook, Report};
use crate::text::{next_question, read, write_problem, write_question};
use crate::{race, timed, Race};

#[derive(Clone, Copy, Debug, PartialEq)]
#[repr(C)]
struct Planned {
    outcome: u32,
    steps: u32,
    opened: u32,
    kept: u32,
    passed_over: u32,
    left_open: u32,
}

extern "C" {
    fn bridge_plan(text: *const u8, len: usize, list: *mut u64, list_len: usize) -> Planned;
}

/// The rows of the keeper, and the most states that the forward search may remember.
const ROWS: usize = 2_000;
const STATES: usize = 400_000;

fn told(report: Report) -> Planned {
    let outcome = match report.outcome {
        Outcome::Plan => 0,
        Outcome::Never => 1,
        Outcome::NotWithin => 2,
        Outcome::Spent => 3,
    };
    let Report { steps, opened, kept, passed_over, left_open, .. } = report;
    Planned { outcome, steps, opened, kept, passed_over, left_open }
}

fn proved(text: &[u8]) -> (Planned, Vec<u64>) {
    let mut list = vec![0; 32];
    let planned = unsafe { bridge_plan(text.as_ptr(), text.len(), list.as_mut_ptr(), list.len()) };
    list.truncate(planned.steps as usize);
    (planned, list)
}

fn plain(text: &[u8]) -> (Planned, Vec<u64>) {
    let (problem, bytes) = read(text).expect("a problem");
    let (question, _) = next_question(text, bytes).expect("no fault").expect("a question");
    let outlook = Outlook::new(&problem);
    let mut list = Vec::new();
    let report = plan(&outlook, &mut Keeper::new(ROWS), question, &mut list);
    (told(report), list)
}

/// How the time of the proved program compares with that of a forward search, which has to find as many steps.
fn beside_forward(task: &Task, race: &Race<(Planned, Vec<u64>)>) -> String {
    let question = task.question;
    let forward = || search(&task.problem, question.need, question.avoid, u32::from(question.limit), STATES);
    let (time, found) = timed(forward);
    match found {
        Found::Full => format!("the forward search gave up at {STATES} states, after {:.1} times as long", time / race.proved),
        Found::Steps(steps) => {
            assert_eq!(steps, race.answer.0.steps, "{}: the forward search disagrees", task.name);
            let best = (1..3).map(|_| timed(forward).0).fold(time, f64::min);
            format!("{:.2} times a forward search", race.proved / best)
        }
        Found::Nothing => panic!("{}: the forward search finds no plan", task.name),
    }
}

fn run_on(task: &Task) {
    let mut text = Vec::new();
    write_problem(&task.problem, &mut text);
    write_question(&task.question, &mut text);
    let race = race(&task.name, || proved(&text), || plain(&text));
    let Planned { outcome, steps, opened, .. } = race.answer.0;
    assert_eq!(outcome, 0, "{}: no plan", task.name);
    let forward = beside_forward(task, &race);
    let name = &task.name;
    let (ratio, a, b) = (race.ratio(), race.proved * 1e3, race.plain * 1e3);
    println!("plan, {name}: {steps} steps, {opened} opened: {ratio:.2} times plain Rust ({a:.1} ms to {b:.1} ms), {forward}");
}

fn tasks() -> Vec<Task> {
    let all: &[usize] = &[ROUND, SMOOTH, PAINTED, DRILLED];
    let others: [&[usize]; 5] = [&all[..3], &all[2..], &[ROUND, DRILLED], &all[1..], &all[1..3]];
    vec![
        blocks(4, &[1, 2, 3, 4, 5, 6], &[6, 0, 1, 2, 3, 4]),
        blocks(2, &[1, 2, 3, 4, 5, 6, 7], &[7, 0, 1, 2, 3, 4, 5]),
        gripper(2, 5),
        gripper(4, 6),
        briefcase(2, 5, &[1, 2, 3, 4], &[2, 3, 4, 1]),
        briefcase(4, 4, &[1, 2, 3, 1, 2], &[2, 3, 1, 3, 1]),
        shop(2, &[all, all, &all[..3]]),
        shop(4, &others),
    ]
}

pub fn run() {
    for task in tasks() {
        run_on(&task);
    }
}
