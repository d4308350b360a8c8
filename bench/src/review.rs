//! Review against a full keeper of 4,096 rows.
use crate::keeper::{Keeper, Position};
use crate::{compare, scatter};

extern "C" {
    fn bridge_review(told: u32, reviewed: u32, seed: u64) -> u64;
}

fn scattered(x: u64) -> Position {
    let need = scatter(x) & scatter(x ^ 1);
    let avoid = scatter(x ^ 2) & scatter(x ^ 3) & !need;
    Position { level: (x % 32) as u8 + 1, need, avoid }
}

fn plain(told: u32, reviewed: u32, seed: u64) -> u64 {
    let mut keeper = Keeper::new(4096);
    let mut x = seed;
    for _ in 0..told {
        x = scatter(x);
        keeper.tell(&scattered(x));
    }
    let mut covered = 0;
    let mut x = seed ^ 0x5555_5555;
    for _ in 0..reviewed {
        x = scatter(x);
        covered += u64::from(keeper.review(&scattered(x)));
    }
    covered
}

pub fn run() {
    compare("review against 4,096 rows", || unsafe { bridge_review(4096, 20_000, 7) }, || plain(4096, 20_000, 7));
}
