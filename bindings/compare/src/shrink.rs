//! Smaller inputs: runs are cut, numbers are lowered, while what was found stays.

/// A part of an input.
pub trait Shrink: Clone {
    /// Tries smaller values, and keeps each that is still wrong; says whether there was one.
    fn shrink(&mut self, wrong: &mut dyn FnMut(&Self) -> bool) -> bool;

    /// The part in hex.
    fn hex(&self) -> String;
}

/// Keeps `candidate` if it is still wrong.
fn kept<T: Clone>(current: &mut T, candidate: T, wrong: &mut dyn FnMut(&T) -> bool) -> bool {
    let keep = wrong(&candidate);
    if keep {
        *current = candidate;
    }
    keep
}

impl Shrink for u64 {
    fn shrink(&mut self, wrong: &mut dyn FnMut(&Self) -> bool) -> bool {
        let before = *self;
        while *self > 0 && (kept(self, 0, wrong) || kept(self, *self / 2, wrong) || kept(self, *self - 1, wrong)) {}
        *self < before
    }

    fn hex(&self) -> String {
        format!("{self:x}")
    }
}

impl Shrink for usize {
    fn shrink(&mut self, wrong: &mut dyn FnMut(&Self) -> bool) -> bool {
        let mut number = *self as u64;
        let smaller = number.shrink(&mut |number| wrong(&(*number as usize)));
        *self = number as usize;
        smaller
    }

    fn hex(&self) -> String {
        format!("{self:x}")
    }
}

impl Shrink for Vec<u8> {
    fn shrink(&mut self, wrong: &mut dyn FnMut(&Self) -> bool) -> bool {
        let cut = cut(self, wrong);
        let lowered = (0..self.len()).fold(false, |any, place| {
            any | [0, self[place] / 2].into_iter().any(|byte| byte < self[place] && with(self, place, byte, wrong))
        });
        cut | lowered | shortened(self, wrong)
    }

    fn hex(&self) -> String {
        self.iter().map(|byte| format!("{byte:02x}")).collect()
    }
}

impl Shrink for Vec<u64> {
    fn shrink(&mut self, wrong: &mut dyn FnMut(&Self) -> bool) -> bool {
        let cut = cut(self, wrong);
        let lowered = (0..self.len()).fold(false, |any, place| {
            let number = self[place];
            let lower = [0, number / 2, number.saturating_sub(1)];
            any | lower.into_iter().any(|number| number < self[place] && with(self, place, number, wrong))
        });
        cut | lowered
    }

    fn hex(&self) -> String {
        self.iter().map(|number| format!("{number:x}")).collect::<Vec<_>>().join(" ")
    }
}

impl Shrink for Vec<Vec<u8>> {
    fn shrink(&mut self, wrong: &mut dyn FnMut(&Self) -> bool) -> bool {
        let cut = cut(self, wrong);
        (0..self.len()).fold(cut, |any, place| {
            let mut whole = self.clone();
            any | self[place].shrink(&mut |run| {
                whole[place] = run.clone();
                wrong(&whole)
            })
        })
    }

    fn hex(&self) -> String {
        self.iter().map(Shrink::hex).collect::<Vec<_>>().join(" ")
    }
}

/// Cuts out a byte and lowers one before it, as the length of what is cut; in short runs only, since it tries all pairs.
fn shortened(run: &mut Vec<u8>, wrong: &mut dyn FnMut(&Vec<u8>) -> bool) -> bool {
    let before = run.len();
    let mut place = 1;
    while place < run.len() && run.len() <= 100 {
        let pair = |length: usize| {
            let mut candidate = run.clone();
            candidate[length] = run[length].checked_sub(1)?;
            candidate.remove(place);
            Some(candidate)
        };
        match (0..place).filter_map(pair).find(|candidate| wrong(candidate)) {
            Some(candidate) => *run = candidate,
            None => place += 1,
        }
    }
    run.len() < before
}

/// Puts an item at a place, if that is still wrong.
fn with<T: Clone>(run: &mut Vec<T>, place: usize, item: T, wrong: &mut dyn FnMut(&Vec<T>) -> bool) -> bool {
    let mut candidate = run.clone();
    candidate[place] = item;
    kept(run, candidate, wrong)
}

/// Cuts out pieces: halves first, then ever smaller ones; rows of four and triples are among them.
fn cut<T: Clone>(run: &mut Vec<T>, wrong: &mut dyn FnMut(&Vec<T>) -> bool) -> bool {
    let before = run.len();
    let mut piece = run.len();
    while piece > 0 {
        let mut place = 0;
        while place + piece <= run.len() {
            let candidate = [&run[..place], &run[place + piece..]].concat();
            if !kept(run, candidate, wrong) {
                place += piece;
            }
        }
        piece = if piece > 4 { (piece / 2).max(4) } else { piece - 1 };
    }
    run.len() < before
}
