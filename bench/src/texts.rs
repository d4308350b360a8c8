//! Reading a problem and the questions behind it, and writing the problem again.
use crate::graph::scattered;
use crate::planner::Question;
use crate::text::{next_question, read, write_problem, write_question, Fault};
use crate::{race, scatter};

extern "C" {
    fn bridge_text(text: *const u8, len: usize, out: *mut u8, out_len: usize) -> u64;
}

/// How often a text is read and written in a run.
const ROUNDS: usize = 500;

/// A problem of so many actions with eight effects each, and questions up to so many bytes.
fn full_text(actions: usize, most: usize) -> Vec<u8> {
    let mut problem = scattered(11);
    problem.actions.truncate(actions);
    problem.effects.truncate(8 * actions);
    let mut text = Vec::new();
    write_problem(&problem, &mut text);
    let mut x = 7;
    while text.len() + 22 <= most {
        x = scatter(x);
        let need = scatter(x);
        write_question(&Question { need, avoid: scatter(x ^ 1) & !need, limit: (x % 33) as u8, budget: 5000 }, &mut text);
    }
    text
}

fn fault_number(fault: Fault) -> u64 {
    fault.offset as u64 * 100 + u64::from(fault.number)
}

/// The questions from `at` on, added up, with the fault that ends them.
fn questions(text: &[u8], at: usize) -> u64 {
    let mut sum: u64 = 0;
    let mut at = at;
    loop {
        match next_question(text, at) {
            Ok(Some((question, next))) => {
                let Question { need, avoid, limit, budget } = question;
                sum = sum.wrapping_add(need ^ avoid).wrapping_add(u64::from(limit) + u64::from(budget));
                at = next;
            }
            Ok(None) => return sum,
            Err(fault) => return sum.wrapping_add(fault_number(fault)),
        }
    }
}

fn plain(text: &[u8], out: &mut Vec<u8>) -> u64 {
    match read(text) {
        Ok((problem, bytes)) => {
            let sum = questions(text, bytes);
            out.clear();
            write_problem(&problem, out);
            sum.wrapping_add(out.len() as u64)
        }
        Err(fault) => fault_number(fault),
    }
}

fn proved(text: &[u8], out: &mut [u8]) -> u64 {
    unsafe { bridge_text(text.as_ptr(), text.len(), out.as_mut_ptr(), out.len()) }
}

/// Both programs find the same fault in texts that are cut or have a byte changed.
fn check_faults(text: &[u8]) {
    let (mut out, mut bytes) = (Vec::new(), vec![0; text.len()]);
    for at in (0..text.len()).step_by(7) {
        assert_eq!(proved(&text[..at], &mut bytes), plain(&text[..at], &mut out), "text cut at {at}");
        let mut changed = text.to_vec();
        changed[at] = scatter(at as u64 + 1) as u8 % 8;
        assert_eq!(proved(&changed, &mut bytes), plain(&changed, &mut out), "text changed at {at}");
    }
}

/// Prints the ratio for a text, and answers the time a byte of both programs.
fn run_on(text: &[u8]) -> (f64, f64) {
    let name = format!("reading and writing a text of {} bytes", text.len());
    let (mut out, mut bytes) = (Vec::new(), vec![0; text.len()]);
    let sum = |one: &mut dyn FnMut() -> u64| (0..ROUNDS).fold(0, |sum: u64, _| sum.wrapping_add(one()));
    let race = race(&name, || sum(&mut || proved(text, &mut bytes)), || sum(&mut || plain(text, &mut out)));
    assert!(text.starts_with(&out) && bytes.starts_with(&out), "{name}: not what was read");
    let each = 1e9 / (ROUNDS * text.len()) as f64;
    let (a, b) = (race.proved * each, race.plain * each);
    println!("{name}: {:.2} times plain Rust ({a:.2} ns a byte to {b:.2} ns)", race.ratio());
    (a, b)
}

pub fn run() {
    let whole = full_text(64, 32_768);
    check_faults(&whole);
    let (a, b) = run_on(&whole);
    let (c, d) = run_on(&full_text(32, 16_384));
    println!("time a byte, the long text to the short one: {:.2} proved, {:.2} in plain Rust", a / c, b / d);
}
