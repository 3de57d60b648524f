//! The update of the sets after one column was changed, beside a fresh preparation.

use crate::rust_finder;
use crate::scores::{Kind, Random, Score, ALL_CLASSES, COLUMNS, TOTAL, TRACKS};
use crate::timing::{keep, medians, Ratios, ROUNDS};
use finder::{Refusal, Summary};

/// How many columns are changed in each score, one after another.
const CHANGES: usize = 8;

/// As many scores as make 2,048 columns, each with its right sets and some columns to be changed.
struct Input {
    h: usize,
    scores: Vec<(Score, [u16; CHANGES])>,
}

/// A preparation or an update, by one of the finders.
type Prepare = fn(&[u8], usize, &mut [u16]) -> Result<Summary, Refusal>;
type Update = fn(&[u8], usize, u16, &mut [u16]) -> Result<Summary, Refusal>;

const CALLS: [fn(&mut Input); 4] = [
    |i| i.prepare(finder::prepare),
    |i| i.prepare(rust_finder::prepare),
    |i| i.update(finder::update),
    |i| i.update(rust_finder::update),
];

impl Input {
    fn new(kind: Kind, h: usize, n: usize, random: &mut Random) -> Input {
        let score = |_| {
            let score = Score::new(kind, ALL_CLASSES, h, 2, n, 0, random);
            (score, [(); CHANGES].map(|()| 1 + random.below(n) as u16))
        };
        Input { h, scores: (0..TOTAL / n).map(score).collect() }
    }

    fn prepare(&mut self, prepare: Prepare) {
        for (score, _) in &mut self.scores {
            keep(prepare(&score.cells, self.h, &mut score.sets));
        }
    }

    fn update(&mut self, update: Update) {
        for (score, columns) in &mut self.scores {
            for column in columns {
                keep(update(&score.cells, self.h, *column, &mut score.sets));
            }
        }
    }

    /// From the sets of a score that differs in one column both give those of the score, and the summary; from any sets both
    /// give the same.
    fn compare(&self, random: &mut Random) {
        for (score, columns) in &self.scores {
            for column in columns {
                let mut before = score.cells.clone();
                let rests = random.below(2) == 0;
                for cell in &mut before[(usize::from(*column) - 1) * self.h..][..self.h] {
                    *cell = if rests { 255 } else { random.below(128) as u8 };
                }
                let mut sets = vec![0; score.sets.len()];
                finder::prepare(&before, self.h, &mut sets).unwrap();
                let any: Vec<u16> = score.sets.iter().map(|_| random.below(4096) as u16).collect();
                let left = |update: Update, mut sets: Vec<u16>| (update(&score.cells, self.h, *column, &mut sets), sets);
                for update in [finder::update, rust_finder::update] {
                    assert_eq!(left(update, sets.clone()), (Ok(score.summary), score.sets.clone()));
                }
                assert_eq!(left(finder::update, any.clone()), left(rust_finder::update, any));
            }
        }
    }
}

struct Row {
    h: usize,
    n: usize,
    /// nanoseconds a call, by `CALLS`
    t: [f64; 4],
}

/// All updates of a kind of scores.
pub struct Updates(Vec<Row>);

impl Updates {
    pub fn new(kind: Kind) -> Updates {
        let mut random = Random(0x5eed_0c4a_19ed_c013);
        let mut rows = Vec::new();
        for h in TRACKS {
            for n in COLUMNS {
                let mut input = Input::new(kind, h, n, &mut random);
                input.compare(&mut random);
                let scores = (TOTAL / n) as f64;
                let [prepare, rust_prepare, update, rust_update] = medians(&mut input, CALLS).map(|t| t / scores);
                let changes = CHANGES as f64;
                rows.push(Row { h, n, t: [prepare, rust_prepare, update / changes, rust_update / changes] });
            }
        }
        Updates(rows)
    }

    pub fn say(&self) {
        println!("\nThe update after one column was changed, beside a fresh preparation, nanoseconds a call; medians of");
        println!("{ROUNDS} rounds. `x` is the library by the Rust, `by prepare` the library's update by its preparation; the");
        println!("target of that is at most 0.33 at n = 2,048.\n");
        println!("| h | n | prepare: lib | rust | x | update: lib | rust | x | by prepare |\n|{}", "--:|".repeat(9));
        let mut ratios = Ratios::default();
        for r in &self.0 {
            let [prepare, rust_prepare, update, rust_update] = r.t;
            print!("| {} | {} | {prepare:.0} | {rust_prepare:.0} | {:.2} |", r.h, r.n, prepare / rust_prepare);
            print!(" {update:.0} | {rust_update:.0} | {:.2} |", ratios.add(update / rust_update));
            println!(" {:.3} |", update / prepare);
        }
        println!("\nRatios, library by Rust, over the {} inputs; the target is at most 1.25.\n", self.0.len());
        println!("| | least | median | geometric mean | most | over 1.25 |\n|---|--:|--:|--:|--:|--:|");
        ratios.say("update");
    }
}
