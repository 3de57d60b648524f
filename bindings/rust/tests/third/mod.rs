//! A third finder, in plain Rust, straight from the definition: no codes, no register, no table but the one that is asked
//! for. It shares nothing with the library, and is as slow as the definition reads. Each test uses some of it.
#![allow(dead_code)]

mod checks;
mod explaining;
pub mod routing;

use finder::{AnyWay, Bookmark, Page, Refusal, Summary, Way};

/// A call's lent buffers, before and after.
#[derive(Clone, PartialEq, Eq, Debug)]
pub struct Lent {
    pub sets: Vec<u16>,
    pub table: Vec<u32>,
    pub columns: Vec<u16>,
    pub shifts: Vec<i16>,
    pub route: Vec<u8>,
}

#[derive(Clone, Debug)]
pub struct Call {
    pub cells: Vec<u8>,
    pub tracks: usize,
    pub theme: Vec<u8>,
    pub way: AnyWay,
    pub bookmark: Bookmark,
    /// said to be that of the lent sets
    pub summary: Summary,
    /// the column that was changed
    pub changed: u16,
    pub lent: Lent,
}

/// The summary of some sets: bit d is 0 exactly where some set has bit d at 0.
pub fn summary_of(sets: &[u16]) -> Summary {
    let mut summary = 0;
    for d in 0..12 {
        let zero = sets.iter().any(|set| set >> d & 1 == 0);
        if !zero {
            summary += 1 << d;
        }
    }
    Summary(summary)
}

impl Call {
    fn n(&self) -> usize {
        self.cells.len() / self.tracks
    }

    /// The pitches of column j, counted from 1.
    fn column(&self, j: usize) -> impl Iterator<Item = i32> + '_ {
        self.cells[(j - 1) * self.tracks..j * self.tracks].iter().filter(|c| **c <= 127).map(|c| i32::from(*c))
    }

    fn has_pitch(&self, j: usize) -> bool {
        self.column(j).next().is_some()
    }

    /// Where the theme's notes are sought from column j on: the columns with a pitch, one after another, one for each note,
    /// or fewer where no more are left.
    pub fn onward(&self, j: usize) -> Vec<usize> {
        (j..=self.n()).filter(|k| self.has_pitch(*k)).take(self.theme.len()).collect()
    }

    /// The lowest and the highest shift of the way.
    fn shifts(&self) -> (i32, i32) {
        match self.way {
            AnyWay::Moved(Way::Exact) => (-127, 127),
            AnyWay::Moved(Way::Octave) => (0, 11),
            AnyWay::Written => (0, 0),
        }
    }

    /// The set of column k, by the definition.
    fn set(&self, k: usize) -> u16 {
        let mut set = 4095;
        let Some(next) = (k + 1..=self.n()).find(|l| self.has_pitch(*l)) else { return set };
        for x in self.column(k) {
            for y in self.column(next) {
                set &= !(1 << (y - x).rem_euclid(12));
            }
        }
        set
    }

    /// Preparation: the answer, and the sets after it.
    pub fn prepare(&self) -> (Result<Summary, Refusal>, Vec<u16>) {
        if let Err(r) = self.check_preparation() {
            return (Err(r), self.lent.sets.clone());
        }
        let sets: Vec<u16> = (1..self.n()).map(|k| self.set(k)).collect();
        (Ok(summary_of(&sets)), sets)
    }

    /// The update after a column was changed: the answer, and the sets after it.
    pub fn update(&self) -> (Result<Summary, Refusal>, Vec<u16>) {
        let mut sets = self.lent.sets.clone();
        if let Err(r) = self.check_update() {
            return (Err(r), sets);
        }
        let own = usize::from(self.changed);
        let earlier = (1..own).filter(|k| self.has_pitch(*k)).max();
        for k in 1..self.n() {
            if k == own || Some(k) == earlier {
                sets[k - 1] = self.set(k);
            }
        }
        (Ok(summary_of(&sets)), sets)
    }

    /// The interval from note i to the next, counted from 0.
    pub fn interval(&self, i: usize) -> i32 {
        (i32::from(self.theme[i + 1]) - i32::from(self.theme[i])).rem_euclid(12)
    }

    /// The theme's table.
    fn table(&self) -> Vec<u32> {
        let word = |l: usize| {
            let mut word = !0;
            for i in 0..self.theme.len() - 1 {
                if l >> self.interval(i) & 1 == 0 {
                    word &= !(1 << i);
                }
            }
            word
        };
        (0..4096).map(word).collect()
    }

    /// Where the notes are sought that begin at column j; none where it has no pitch, where too few columns with one are left,
    /// or, of a quick search, where it is no candidate.
    pub fn sought(&self, j: usize, quick: bool) -> Option<Vec<usize>> {
        let places = self.onward(j);
        let reached = self.has_pitch(j) && places.len() == self.theme.len();
        let has = |i: usize| self.lent.sets[places[i] - 1] >> self.interval(i) & 1 == 0;
        let passed = reached && (!quick || (0..self.theme.len() - 1).all(has));
        passed.then_some(places)
    }

    /// The question: the answer, and the lent buffers after it. It is yes where the quick list has a pair.
    pub fn occurs(&self) -> (Result<bool, Refusal>, Lent) {
        let mut lent = self.lent.clone();
        if let Err(r) = self.check_question() {
            return (Err(r), lent);
        }
        lent.table = self.table();
        let (lowest, highest) = self.shifts();
        let listed = |j: usize| {
            self.sought(j, true).is_some_and(|places| {
                (lowest..=highest).any(|c| (0..self.theme.len()).all(|i| self.holds(places[i], i, c)))
            })
        };
        (Ok((1..=self.n()).any(listed)), lent)
    }

    /// A page: the answer, and the lent buffers after it.
    pub fn page(&self, quick: bool) -> (Result<Page, Refusal>, Lent) {
        let mut lent = self.lent.clone();
        if let Err(r) = self.check_pages(quick) {
            return (Err(r), lent);
        }
        if quick {
            lent.table = self.table();
        }
        let room = lent.columns.len();
        let (lowest, highest) = self.shifts();
        // the tune as it is written takes no looks
        let cost = u32::from(self.way != AnyWay::Written);
        let (mut written, mut looks) = (0, 0);
        for j in 1..=self.n() {
            let Some(places) = self.sought(j, quick) else { continue };
            for c in lowest..=highest {
                if (j, c) < (usize::from(self.bookmark.column), i32::from(self.bookmark.shift)) || !self.holds(j, 0, c) {
                    continue;
                }
                let mut hit = true;
                for i in 1..self.theme.len() {
                    looks += cost;
                    if !self.holds(places[i], i, c) {
                        hit = false;
                        break;
                    }
                }
                if hit {
                    lent.columns[written] = j as u16;
                    lent.shifts[written] = c as i16;
                    written += 1;
                    if written == room {
                        let next = Bookmark { column: j as u16, shift: c as i16 + 1 };
                        return (Ok(Page { written, next, finished: false, looks }), lent);
                    }
                }
            }
        }
        let next = Bookmark { column: self.n() as u16 + 1, shift: lowest as i16 };
        (Ok(Page { written, next, finished: true, looks }), lent)
    }

    /// Whether column k holds note i moved by c.
    fn holds(&self, k: usize, i: usize, c: i32) -> bool {
        let p = i32::from(self.theme[i]);
        self.column(k).any(|t| match self.way {
            AnyWay::Moved(Way::Exact) | AnyWay::Written => t == p + c,
            AnyWay::Moved(Way::Octave) => (t - p - c) % 12 == 0,
        })
    }
}
