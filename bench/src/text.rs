//! The problem text: reading with the number and the offset of the first fault, questions, and writing.
use crate::planner::Question;
use crate::problem::{Action, Effect, Problem};
use crate::sets::{all_below, inside};

/// Why a text could not be read: the refusal's number, and where the record at fault stands.
#[derive(Clone, Copy, Debug, PartialEq)]
pub struct Fault {
    pub number: u8,
    pub offset: usize,
}

const CUT: u8 = 1;
const UNKNOWN_KIND: u8 = 2;
const WRONG_PLACE: u8 = 3;
const OUT_OF_RANGE: u8 = 4;
const UNKNOWN_ATOM: u8 = 5;

const SIZE: u8 = 1;
const FIRST: u8 = 2;
const ACTION: u8 = 3;
const EFFECT: u8 = 4;
const END: u8 = 5;
const QUESTION: u8 = 6;

/// How long the body of a record of each kind is.
const BODIES: [usize; 7] = [0, 2, 8, 8, 24, 0, 21];

const MOST_ACTIONS: usize = 64;
const MOST_EFFECTS: usize = 8;

fn set_at(body: &[u8], at: usize) -> u64 {
    let mut bytes = [0; 8];
    bytes.copy_from_slice(&body[at..at + 8]);
    u64::from_be_bytes(bytes)
}

struct Reader<'a> {
    text: &'a [u8],
    at: usize,
}

impl<'a> Reader<'a> {
    fn fault<T>(&self, number: u8) -> Result<T, Fault> {
        Err(Fault { number, offset: self.at })
    }

    /// The kind of the record that is next, if it may stand here.
    fn kind(&self, takes: impl Fn(u8) -> bool) -> Result<u8, Fault> {
        match self.text.get(self.at) {
            None => self.fault(CUT),
            Some(&kind) if !(SIZE..=QUESTION).contains(&kind) => self.fault(UNKNOWN_KIND),
            Some(&kind) if !takes(kind) => self.fault(WRONG_PLACE),
            Some(&kind) => Ok(kind),
        }
    }

    fn body(&self, kind: u8) -> Result<&'a [u8], Fault> {
        let body = &self.text[self.at + 1..];
        match body.get(..BODIES[kind as usize]) {
            Some(body) => Ok(body),
            None => self.fault(CUT),
        }
    }

    /// The body of the next record, which has to be of one kind.
    fn only(&self, kind: u8) -> Result<&'a [u8], Fault> {
        self.kind(|k| k == kind)?;
        self.body(kind)
    }

    fn pass(&mut self, body: &[u8]) {
        self.at += 1 + body.len();
    }

    /// Whether the sets name only atoms that the problem has.
    fn known(&self, sets: u64, all: u64) -> Result<(), Fault> {
        if inside(sets, all) {
            Ok(())
        } else {
            self.fault(UNKNOWN_ATOM)
        }
    }
}

fn action_in(reader: &Reader, body: &[u8], all: u64, problem: &Problem) -> Result<Action, Fault> {
    if problem.actions.len() >= MOST_ACTIONS {
        return reader.fault(OUT_OF_RANGE);
    }
    let precondition = set_at(body, 0);
    reader.known(precondition, all)?;
    Ok(Action { precondition, first_effect: problem.effects.len() })
}

fn effect_in(reader: &Reader, body: &[u8], all: u64, of_action: usize) -> Result<Effect, Fault> {
    if of_action >= MOST_EFFECTS {
        return reader.fault(OUT_OF_RANGE);
    }
    let effect = Effect { condition: set_at(body, 0), add: set_at(body, 8), delete: set_at(body, 16) };
    reader.known(effect.condition | effect.add | effect.delete, all)?;
    Ok(effect)
}

/// The actions and effects up to the end record.
fn read_rows(reader: &mut Reader, all: u64, problem: &mut Problem) -> Result<(), Fault> {
    let mut of_action = 0;
    loop {
        let acted = !problem.actions.is_empty();
        let kind = reader.kind(|k| k == ACTION || k == END || k == EFFECT && acted)?;
        let body = reader.body(kind)?;
        match kind {
            ACTION => {
                problem.actions.push(action_in(reader, body, all, problem)?);
                of_action = 0;
            }
            EFFECT => {
                problem.effects.push(effect_in(reader, body, all, of_action)?);
                of_action += 1;
            }
            _ => return Ok(()),
        }
        reader.pass(body);
    }
}

/// The problem that a text begins with, and how many bytes it took.
pub fn read(text: &[u8]) -> Result<(Problem, usize), Fault> {
    let mut reader = Reader { text, at: 0 };
    let size = reader.only(SIZE)?;
    let (atoms, hands) = (u32::from(size[0]), u32::from(size[1]));
    if !(1..=64).contains(&atoms) || !(1..=4).contains(&hands) {
        return reader.fault(OUT_OF_RANGE);
    }
    reader.pass(size);
    let all = all_below(atoms as usize);
    let body = reader.only(FIRST)?;
    let first = set_at(body, 0);
    reader.known(first, all)?;
    reader.pass(body);
    let (actions, effects) = (Vec::with_capacity(64), Vec::with_capacity(512));
    let mut problem = Problem { atoms, hands, first, actions, effects };
    read_rows(&mut reader, all, &mut problem)?;
    Ok((problem, reader.at + 1))
}

/// The question at `at`, and where the next one would begin; none where the text ends there.
pub fn next_question(text: &[u8], at: usize) -> Result<Option<(Question, usize)>, Fault> {
    if at >= text.len() {
        return Ok(None);
    }
    let reader = Reader { text, at };
    let body = reader.only(QUESTION)?;
    let budget = u32::from_be_bytes([body[17], body[18], body[19], body[20]]);
    let question = Question { need: set_at(body, 0), avoid: set_at(body, 8), limit: body[16], budget };
    Ok(Some((question, at + 1 + body.len())))
}

fn write_record(out: &mut Vec<u8>, kind: u8, sets: &[u64]) {
    out.push(kind);
    for set in sets {
        out.extend_from_slice(&set.to_be_bytes());
    }
}

/// Writes the text of a problem behind what is there.
pub fn write_problem(problem: &Problem, out: &mut Vec<u8>) {
    out.extend_from_slice(&[SIZE, problem.atoms as u8, problem.hands as u8]);
    write_record(out, FIRST, &[problem.first]);
    for (k, action) in problem.actions.iter().enumerate() {
        write_record(out, ACTION, &[action.precondition]);
        for e in problem.effects_of(k) {
            write_record(out, EFFECT, &[e.condition, e.add, e.delete]);
        }
    }
    out.push(END);
}

/// Writes a question behind what is there.
pub fn write_question(question: &Question, out: &mut Vec<u8>) {
    write_record(out, QUESTION, &[question.need, question.avoid]);
    out.push(question.limit);
    out.extend_from_slice(&question.budget.to_be_bytes());
}
