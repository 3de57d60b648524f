//! The question whether a theme occurs at all: themes that do, themes that the summary rejects, and themes that pass it and
//! occur nowhere.

use crate::rust_finder;
use crate::scores::{Kind, Random, Score, ALL_CLASSES, COLUMNS, NOTES, SIX_CLASSES, TOTAL, TRACKS};
use crate::timing::{keep, medians, Ratios, ROUNDS};
use finder::{Refusal, Way, TABLE_LEN};

/// How the question of a score's theme is decided.
#[derive(Clone, Copy)]
enum Case {
    /// The theme is picked from the score.
    Yes,
    /// It has a tritone, which no set of the score has.
    NoBySummary,
    /// Each interval is in some set, and yet it occurs nowhere.
    NoByWalk,
}

const CASES: [Case; 3] = [Case::Yes, Case::NoBySummary, Case::NoByWalk];

/// As many scores as make 2,048 columns, each with a theme of the same case.
struct Input {
    h: usize,
    way: Way,
    case: Case,
    scores: Vec<Score>,
    table: Vec<u32>,
}

/// A question, by one of the finders.
type Ask = fn(&Score, usize, Way, &mut [u32]) -> Result<bool, Refusal>;

fn lib(s: &Score, h: usize, way: Way, table: &mut [u32]) -> Result<bool, Refusal> {
    finder::occurs(&s.cells, h, &s.theme, way, &s.sets, s.summary, table)
}

fn rust(s: &Score, h: usize, way: Way, table: &mut [u32]) -> Result<bool, Refusal> {
    rust_finder::occurs(&s.cells, h, &s.theme, way, &s.sets, s.summary, table)
}

const CALLS: [fn(&mut Input); 2] = [|i| i.each(lib), |i| i.each(rust)];

impl Score {
    /// The scores of a no have pitches of six classes, and the theme is one of theirs with something put in: a tritone; or two
    /// fourths one after another, three notes that span more than any six neighbouring classes.
    fn asked(case: Case, kind: Kind, h: usize, m: usize, n: usize, random: &mut Random) -> Score {
        let pitches = if let Case::Yes = case { ALL_CLASSES } else { SIX_CLASSES };
        loop {
            let mut score = Score::new(kind, pitches, h, m, n, 7, random);
            let theme = &mut score.theme;
            match case {
                Case::Yes => {}
                Case::NoBySummary => {
                    let i = random.below(m - 1);
                    theme[i + 1] = theme[i] + 6;
                }
                Case::NoByWalk => {
                    let i = random.below(m - 2);
                    theme[i + 1] = theme[i] + 5;
                    theme[i + 2] = theme[i] + 10;
                }
            }
            // a short score may have no fourth at all, and then another one is taken
            if score.lacks_an_interval() == matches!(case, Case::NoBySummary) {
                return score;
            }
        }
    }

    fn lacks_an_interval(&self) -> bool {
        let interval = |two: &[u8]| (i32::from(two[1]) - i32::from(two[0])).rem_euclid(12);
        self.theme.windows(2).any(|two| self.summary.0 >> interval(two) & 1 == 1)
    }
}

impl Input {
    fn new(case: Case, kind: Kind, h: usize, m: usize, n: usize, way: Way, random: &mut Random) -> Input {
        let scores = (0..TOTAL / n).map(|_| Score::asked(case, kind, h, m, n, random)).collect();
        Input { h, way, case, scores, table: vec![0; TABLE_LEN] }
    }

    fn each(&mut self, ask: Ask) {
        for score in &self.scores {
            keep(ask(score, self.h, self.way, &mut self.table));
        }
    }

    /// The answer that the case is made for, by both, and the same table. A wrong summary is refused by both.
    fn compare(&mut self) {
        for score in &mut self.scores {
            let mut left = |score: &Score, ask: Ask| {
                self.table.fill(9);
                (ask(score, self.h, self.way, &mut self.table), self.table.clone())
            };
            let answer = left(score, lib);
            assert_eq!(answer.0, Ok(matches!(self.case, Case::Yes)));
            assert!(answer == left(score, rust));
            score.summary.0 ^= 1;
            let refused = left(score, lib);
            assert_eq!(refused.0, Err(Refusal { number: 12, place: 0 }));
            assert!(refused == left(score, rust));
            score.summary.0 ^= 1;
        }
    }
}

struct Row {
    way: &'static str,
    h: usize,
    m: usize,
    n: usize,
    /// nanoseconds a call, by `CASES` and then by `CALLS`
    t: [[f64; 2]; 3],
}

/// All questions of a kind of scores.
pub struct Questions(Vec<Row>);

impl Questions {
    pub fn new(kind: Kind) -> Questions {
        let mut random = Random(0x5eed_0fa5_4ed0_cc12);
        let mut rows = Vec::new();
        for (way, name) in [(Way::Exact, "exact"), (Way::Octave, "octave")] {
            for h in TRACKS {
                for m in NOTES {
                    for n in COLUMNS {
                        let t = CASES.map(|case| {
                            let mut input = Input::new(case, kind, h, m, n, way, &mut random);
                            input.compare();
                            medians(&mut input, CALLS).map(|t| t / (TOTAL / n) as f64)
                        });
                        rows.push(Row { way: name, h, m, n, t });
                    }
                }
            }
        }
        Questions(rows)
    }

    pub fn say(&self) {
        println!("The question whether a theme occurs, nanoseconds a call, with the fill of the theme's table; medians of");
        println!("{ROUNDS} rounds. `x` is the library by the Rust.\n");
        print!("| way | h | m | n | yes: lib | rust | x | no by the summary: lib | rust | x |");
        println!(" no by the walk: lib | rust | x |\n|---|{}", "--:|".repeat(12));
        let mut ratios: [Ratios; 3] = Default::default();
        for r in &self.0 {
            print!("| {} | {} | {} | {} |", r.way, r.h, r.m, r.n);
            for ([lib, rust], ratios) in r.t.iter().zip(&mut ratios) {
                print!(" {lib:.0} | {rust:.0} | {:.2} |", ratios.add(lib / rust));
            }
            println!();
        }
        println!("\nRatios, library by Rust, over the {} inputs; the target is at most 1.25.\n", self.0.len());
        println!("| | least | median | geometric mean | most | over 1.25 |\n|---|--:|--:|--:|--:|--:|");
        let [yes, no_by_summary, no_by_walk] = &mut ratios;
        yes.say("question, yes");
        no_by_summary.say("question, no by the summary");
        no_by_walk.say("question, no by the walk");
    }
}
