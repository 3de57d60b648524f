//! The scores of the measurements, the same in every run.

use finder::Summary;

pub const TRACKS: [usize; 4] = [1, 3, 8, 16];
pub const NOTES: [usize; 3] = [4, 12, 32];
pub const COLUMNS: [usize; 3] = [64, 512, 2048];

/// The columns that each measurement goes through, in as many scores: a short score that comes again and again would be
/// learnt by the processor's branch predictor, and a long one not.
pub const TOTAL: usize = 2048;

pub struct Random(pub u64);

impl Random {
    pub fn below(&mut self, n: usize) -> usize {
        self.0 ^= self.0 << 13;
        self.0 ^= self.0 >> 7;
        self.0 ^= self.0 << 17;
        (self.0 >> 33) as usize % n
    }
}

/// What the scores of a measurement are like.
#[derive(Clone, Copy, PartialEq)]
pub enum Kind {
    /// Every column has a pitch.
    Full,
    /// A tenth of the columns have none.
    Gaps,
}

/// A pitch at random.
pub type Pitches = fn(&mut Random) -> u8;

/// Any pitch of four octaves.
pub const ALL_CLASSES: Pitches = |random| 36 + random.below(49) as u8;

/// A pitch of four octaves whose class is 0 to 5: no two of them are a tritone apart, octaves ignored.
pub const SIX_CLASSES: Pitches = |random| 36 + 12 * random.below(4) as u8 + random.below(6) as u8;

/// A score with a theme, and what is prepared of it.
pub struct Score {
    pub cells: Vec<u8>,
    pub theme: Vec<u8>,
    pub sets: Vec<u16>,
    pub summary: Summary,
}

impl Score {
    /// Pitches at random, a rest in ten cells; a column that rests would leave empty gets a pitch. The theme is picked from
    /// columns with a pitch, one after another, from any tracks, and moved up by so much.
    pub fn new(kind: Kind, pitch: Pitches, h: usize, m: usize, n: usize, moved: u8, random: &mut Random) -> Score {
        let mut cells = vec![255; h * n];
        let mut heard = Vec::new();
        for (k, column) in cells.chunks_exact_mut(h).enumerate() {
            if kind == Kind::Gaps && random.below(10) == 0 {
                continue;
            }
            heard.push(k);
            for cell in column.iter_mut() {
                if random.below(10) > 0 {
                    *cell = pitch(random);
                }
            }
            if column.iter().all(|c| *c == 255) {
                column[random.below(h)] = pitch(random);
            }
        }
        let j = random.below(heard.len() - m + 1);
        let mut theme = Vec::new();
        for k in &heard[j..j + m] {
            let cell = &mut cells[k * h + random.below(h)];
            if *cell == 255 {
                *cell = 60;
            }
            theme.push(*cell + moved);
        }
        let mut sets = vec![0; n - 1];
        let summary = finder::prepare(&cells, h, &mut sets).unwrap();
        Score { cells, theme, sets, summary }
    }
}
