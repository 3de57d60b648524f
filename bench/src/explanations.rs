//! The explainer: pairs that are listed, pairs whose last note is absent, and columns from which on too few have a pitch.

use crate::rust_finder::{self, EXPLAIN_LEN};
use crate::scores::{Kind, Random, Score, ALL_CLASSES, COLUMNS, NOTES, TOTAL, TRACKS};
use crate::timing::{keep, medians, Ratios, ROUNDS};
use finder::{Pair, Reason, Way};

extern "C" {
    fn finder_explain(
        cells: *const u8, cells_len: usize, tracks: usize, theme: *const u8, theme_len: usize, way: u8, column: u16, shift: i16,
        sets: *const u16, sets_len: usize, answer: *mut i64, answer_len: usize,
    ) -> i64;
}

/// How a pair is explained.
#[derive(Clone, Copy)]
enum Case {
    /// The theme is picked from the score, and stands there.
    Listed,
    /// All its notes but the last are there.
    LastAbsent,
    /// One column with a pitch is missing for it.
    TooFew,
}

const CASES: [Case; 3] = [Case::Listed, Case::LastAbsent, Case::TooFew];

type Answer = [i64; EXPLAIN_LEN];

/// As many scores as make 2,048 columns, each with a pair of the same case.
struct Input {
    h: usize,
    way: Way,
    asked: Vec<(Score, Pair)>,
    answer: Answer,
}

/// The explainer of one of the finders: the result of the exported call.
type Explain = fn(&Score, usize, Way, Pair, &mut Answer) -> i64;

/// The exported call itself, whose answer is numbers, and not the safe function, which makes values of them.
fn lib(s: &Score, h: usize, way: Way, pair: Pair, answer: &mut Answer) -> i64 {
    let number = u8::from(way == Way::Octave);
    // Safety: each pointer and length is of a slice, and the answer is lent to this call alone.
    unsafe {
        finder_explain(
            s.cells.as_ptr(), s.cells.len(), h, s.theme.as_ptr(), s.theme.len(), number, pair.column, pair.shift,
            s.sets.as_ptr(), s.sets.len(), answer.as_mut_ptr(), answer.len(),
        )
    }
}

fn rust(s: &Score, h: usize, way: Way, pair: Pair, answer: &mut Answer) -> i64 {
    match rust_finder::explain(&s.cells, h, &s.theme, way, pair, &s.sets, answer) {
        Ok(()) => 0,
        Err(refusal) => i64::from(refusal.number) + 256 * refusal.place as i64,
    }
}

const CALLS: [fn(&mut Input); 2] = [|i| i.each(lib), |i| i.each(rust)];

/// A score with a theme, and a pair of the case.
fn asked(case: Case, kind: Kind, h: usize, m: usize, n: usize, way: Way, random: &mut Random) -> (Score, Pair) {
    loop {
        let mut score = Score::new(kind, ALL_CLASSES, h, m, n, 7, random);
        let mut pair = finder::pairs(&score.cells, h, &score.theme, way).unwrap().last().unwrap();
        match case {
            Case::Listed => return (score, pair),
            // another last note, the first that is absent; with many tracks a column may have all classes, and then another
            // score is taken
            Case::LastAbsent => {
                let from = random.below(128);
                for k in 0..128 {
                    score.theme[m - 1] = ((from + k) % 128) as u8;
                    let explained = finder::explain(&score.cells, h, &score.theme, way, pair, &score.sets).unwrap();
                    if matches!(explained.reason, Reason::Absent { note, .. } if usize::from(note) == m) {
                        return (score, pair);
                    }
                }
            }
            // the first such column that has a pitch, from which the walk to the end is the longest
            Case::TooFew => {
                let columns = (1..).zip(score.cells.chunks_exact(h));
                let heard: Vec<u16> = columns.filter(|(_, c)| c.iter().any(|c| *c < 128)).map(|(k, _)| k).collect();
                pair.column = heard[heard.len() + 1 - m];
                return (score, pair);
            }
        }
    }
}

impl Input {
    fn new(case: Case, kind: Kind, h: usize, m: usize, n: usize, way: Way, random: &mut Random) -> Input {
        let asked = (0..TOTAL / n).map(|_| asked(case, kind, h, m, n, way, random)).collect();
        Input { h, way, asked, answer: [0; EXPLAIN_LEN] }
    }

    fn each(&mut self, explain: Explain) {
        for (score, pair) in &self.asked {
            keep(explain(score, self.h, self.way, *pair, &mut self.answer));
            keep(&self.answer);
        }
    }

    /// The reason that the case is made for, and the same answer by both. So is what both say of other pairs, by any sets, and
    /// of sets that are refused.
    fn compare(&mut self, case: Case, random: &mut Random) {
        let (h, way) = (self.h, self.way);
        let left = |score: &Score, pair: Pair, explain: Explain| {
            let mut answer = [9; EXPLAIN_LEN];
            (explain(score, h, way, pair, &mut answer), answer)
        };
        let same = |score: &Score, pair: Pair| {
            let answer = left(score, pair, lib);
            assert_eq!(answer, left(score, pair, rust));
            answer
        };
        for (score, pair) in &mut self.asked {
            let (result, answer) = same(score, *pair);
            let note = score.theme.len() as i64;
            let expected = match case {
                Case::Listed => [0, 0],
                Case::LastAbsent => [6, note],
                Case::TooFew => [3, 0],
            };
            assert_eq!((result, &answer[..2]), (0, &expected[..]));
            let own = score.sets.clone();
            score.sets.iter_mut().for_each(|set| *set &= random.below(4096) as u16);
            for _ in 0..20 {
                let n = score.cells.len() / h;
                let column = if random.below(2) == 0 { pair.column } else { random.below(n + 2) as u16 };
                let shift = if random.below(2) == 0 { pair.shift } else { random.below(260) as i16 - 130 };
                assert_eq!(same(score, Pair { column, shift }).0, 0);
            }
            score.sets[1] = 4096;
            assert_eq!(same(score, *pair), (7 + 256, [9; EXPLAIN_LEN]));
            score.sets.push(0);
            assert_eq!(same(score, *pair), (6, [9; EXPLAIN_LEN]));
            score.sets = own;
        }
    }
}

struct Row {
    way: &'static str,
    h: usize,
    m: usize,
    n: usize,
    /// nanoseconds a call, by `CASES` and then by `CALLS`
    t: [[f64; 2]; 3],
}

/// All explanations of a kind of scores.
pub struct Explanations(Vec<Row>);

impl Explanations {
    pub fn new(kind: Kind) -> Explanations {
        let mut random = Random(0x5eed_0e8b_1a12_ed14);
        let mut rows = Vec::new();
        for (way, name) in [(Way::Exact, "exact"), (Way::Octave, "octave")] {
            for h in TRACKS {
                for m in NOTES {
                    for n in COLUMNS {
                        let t = CASES.map(|case| {
                            let mut input = Input::new(case, kind, h, m, n, way, &mut random);
                            input.compare(case, &mut random);
                            medians(&mut input, CALLS).map(|t| t / (TOTAL / n) as f64)
                        });
                        rows.push(Row { way: name, h, m, n, t });
                    }
                }
            }
        }
        Explanations(rows)
    }

    pub fn say(&self) {
        println!("Why a pair is listed or not, nanoseconds a call, with the checks of the score, the theme and the sets;");
        println!("medians of {ROUNDS} rounds. `x` is the library by the Rust.\n");
        print!("| way | h | m | n | listed: lib | rust | x | last note absent: lib | rust | x |");
        println!(" too few columns: lib | rust | x |\n|---|{}", "--:|".repeat(12));
        let mut ratios: [Ratios; 3] = Default::default();
        for r in &self.0 {
            print!("| {} | {} | {} | {} |", r.way, r.h, r.m, r.n);
            for ([lib, rust], ratios) in r.t.iter().zip(&mut ratios) {
                print!(" {lib:.0} | {rust:.0} | {:.2} |", ratios.add(lib / rust));
            }
            println!();
        }
        let inputs = self.0.len();
        println!("\nRatios, library by Rust, over the {inputs} inputs. No target is set; 1.25 is that of the other calls.\n");
        println!("| | least | median | geometric mean | most | over 1.25 |\n|---|--:|--:|--:|--:|--:|");
        let [listed, last_absent, too_few] = &mut ratios;
        listed.say("explanation, listed");
        last_absent.say("explanation, last note absent");
        too_few.say("explanation, too few columns");
    }
}
