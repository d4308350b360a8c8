//! Compares the proved library with plain Rust programs that do the same, in one run. Both give an answer, which must agree.
mod domains;
mod forward;
mod graph;
mod judging;
mod keeper;
mod planner;
mod planning;
mod problem;
mod regressing;
mod regression;
mod review;
mod sets;
mod text;
mod texts;
mod trying;

use std::fmt::Debug;
use std::hint::black_box;

/// How often each program is run.
const RUNS: u32 = 7;

/// The next of a row of scattered numbers.
pub fn scatter(x: u64) -> u64 {
    let a = x ^ (x << 13);
    let b = a ^ (a >> 7);
    b ^ (b << 17)
}

#[derive(Default)]
#[repr(C)]
struct Timespec {
    seconds: i64,
    nanoseconds: i64,
}

extern "C" {
    fn clock_gettime(clock: i32, time: *mut Timespec) -> i32;
}

/// The clock of the processor time that this thread took: what else the machine does is not in it.
const THREAD_TIME: i32 = 3;

fn seconds() -> f64 {
    let mut time = Timespec::default();
    let status = unsafe { clock_gettime(THREAD_TIME, &mut time) };
    assert_eq!(status, 0, "no clock");
    time.seconds as f64 + time.nanoseconds as f64 * 1e-9
}

/// How long a run takes, in seconds, and its answer.
pub fn timed<T>(run: impl FnOnce() -> T) -> (f64, T) {
    let start = seconds();
    let answer = black_box(run());
    (seconds() - start, answer)
}

/// The shortest run of each program, in seconds, and the answer of both.
pub struct Race<T> {
    pub proved: f64,
    pub plain: f64,
    pub answer: T,
}

impl<T> Race<T> {
    pub fn ratio(&self) -> f64 {
        self.proved / self.plain
    }
}

/// Runs both programs in turn, some times each.
pub fn race<T: Debug + PartialEq>(name: &str, mut proved: impl FnMut() -> T, mut plain: impl FnMut() -> T) -> Race<T> {
    let mut race = Race { proved: f64::MAX, plain: f64::MAX, answer: plain() };
    for _ in 0..RUNS {
        let (a, x) = timed(&mut proved);
        let (b, y) = timed(&mut plain);
        assert_eq!(x, y, "{name}: the two programs disagree");
        race.proved = race.proved.min(a);
        race.plain = race.plain.min(b);
        race.answer = y;
    }
    race
}

/// Prints the ratio of the proved program's time to the plain one's.
pub fn compare(name: &str, proved: impl FnMut() -> u64, plain: impl FnMut() -> u64) {
    let race = race(name, proved, plain);
    println!("{name}: {:.2} times plain Rust ({:.1} ms to {:.1} ms)", race.ratio(), race.proved * 1e3, race.plain * 1e3);
}

fn main() {
    trying::run();
    texts::run();
    graph::run();
    review::run();
    regressing::run();
    planning::run();
}
