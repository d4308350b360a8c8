//! The keeper: positions found to be out of reach, in a list of bounded length.

#[derive(Clone, Copy)]
pub struct Position {
    pub level: u8,
    pub need: u64,
    pub avoid: u64,
}

impl Position {
    fn covers(&self, other: &Position) -> bool {
        other.level <= self.level && self.need & !other.need == 0 && self.avoid & !other.avoid == 0
    }
}

pub struct Keeper {
    rows: Vec<Position>,
    most: usize,
    pub passed: u32,
}

impl Keeper {
    pub fn new(most: usize) -> Keeper {
        Keeper { rows: Vec::with_capacity(most), most, passed: 0 }
    }

    pub fn kept(&self) -> u32 {
        self.rows.len() as u32
    }

    pub fn review(&self, position: &Position) -> bool {
        self.rows.iter().any(|row| row.covers(position))
    }

    pub fn tell(&mut self, position: &Position) {
        if self.review(position) {
            return;
        }
        if self.rows.len() < self.most {
            self.rows.push(*position);
        } else {
            self.passed += 1;
        }
    }
}
