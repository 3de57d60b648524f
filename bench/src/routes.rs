//! The route of a pair: where few tracks hold a note and where many do, and of a pair that is not listed.

use crate::rust_finder;
use crate::scores::{Kind, Pitches, Random, Score, ALL_CLASSES, COLUMNS, NOTES, TOTAL, TRACKS};
use crate::timing::{keep, medians, Ratios, ROUNDS};
use finder::{AnyWay, Pair, Way, MOST_NOTES};

extern "C" {
    fn finder_route(
        cells: *const u8, cells_len: usize, tracks: usize, theme: *const u8, theme_len: usize, way: u8, column: u16, shift: i16,
        route: *mut u8, route_len: usize, answer: *mut i64, answer_len: usize,
    ) -> i64;
}

/// What is asked for.
#[derive(Clone, Copy)]
enum Case {
    /// The theme is picked from any pitches, so that a note mostly stands in one track.
    Alone,
    /// It is picked from four pitches, so that about a quarter of the tracks have a note.
    Doubled,
    /// As the first, but the last note is absent: the pair is refused.
    LastAbsent,
}

const CASES: [Case; 3] = [Case::Alone, Case::Doubled, Case::LastAbsent];

/// One of four pitches.
const FOUR: Pitches = |random| [48, 60, 64, 67][random.below(4)];

/// The longest route.
type Route = [u8; MOST_NOTES];

/// As many scores as make 2,048 columns, each with a pair of the same case.
struct Input {
    h: usize,
    way: AnyWay,
    asked: Vec<(Score, Pair)>,
    route: Route,
}

/// The router of one of the finders: the result of the exported call, and the changes, which stay as they were where it is not 0.
type Router = fn(&Score, usize, AnyWay, Pair, &mut [u8], &mut i64) -> i64;

fn lib(s: &Score, h: usize, way: AnyWay, pair: Pair, route: &mut [u8], changes: &mut i64) -> i64 {
    let number = match way {
        AnyWay::Moved(Way::Exact) => 0,
        AnyWay::Moved(Way::Octave) => 1,
        AnyWay::Written => 2,
    };
    // Safety: each pointer and length is of a slice, and the route and the changes are lent to this call alone.
    unsafe {
        finder_route(
            s.cells.as_ptr(), s.cells.len(), h, s.theme.as_ptr(), s.theme.len(), number, pair.column, pair.shift,
            route.as_mut_ptr(), route.len(), changes, 1,
        )
    }
}

fn rust(s: &Score, h: usize, way: AnyWay, pair: Pair, route: &mut [u8], changes: &mut i64) -> i64 {
    match rust_finder::route(&s.cells, h, &s.theme, way, pair, route) {
        Ok(counted) => {
            *changes = i64::from(counted);
            0
        }
        Err(refusal) => i64::from(refusal.number) + 256 * refusal.place as i64,
    }
}

const CALLS: [fn(&mut Input); 2] = [|i| i.each(lib), |i| i.each(rust)];

/// A score with a theme, and a pair of the case.
fn asked(case: Case, kind: Kind, h: usize, m: usize, n: usize, way: Way, random: &mut Random) -> (Score, Pair) {
    let pitch = if matches!(case, Case::Doubled) { FOUR } else { ALL_CLASSES };
    loop {
        let mut score = Score::new(kind, pitch, h, m, n, 7, random);
        let pair = finder::pairs(&score.cells, h, &score.theme, way).unwrap().last().unwrap();
        if !matches!(case, Case::LastAbsent) {
            return (score, pair);
        }
        // another last note, the first that is absent; with many tracks a column may have all classes, and then another score
        // is taken
        let from = random.below(128);
        for k in 0..128 {
            score.theme[m - 1] = ((from + k) % 128) as u8;
            if finder::route(&score.cells, h, &score.theme, way, pair).is_err() {
                return (score, pair);
            }
        }
    }
}

impl Input {
    fn new(case: Case, kind: Kind, h: usize, m: usize, n: usize, way: Way, random: &mut Random) -> Input {
        let asked = (0..TOTAL / n).map(|_| asked(case, kind, h, m, n, way, random)).collect();
        Input { h, way: way.into(), asked, route: [0; MOST_NOTES] }
    }

    fn each(&mut self, router: Router) {
        let mut changes = 0;
        for (score, pair) in &self.asked {
            keep(router(score, self.h, self.way, *pair, &mut self.route, &mut changes));
            keep((&self.route, changes));
        }
    }

    /// The result that the case is made for, and the same by both; also of other pairs, in each way, and into buffers that are
    /// longer or too short.
    fn compare(&mut self, case: Case, random: &mut Random) {
        let (h, way) = (self.h, self.way);
        let same = |score: &Score, way: AnyWay, pair: Pair, places: usize| {
            let [left, other] = [lib as Router, rust as Router].map(|router| {
                let (mut route, mut changes) = (vec![200; places], -77);
                (router(score, h, way, pair, &mut route, &mut changes), route, changes)
            });
            assert_eq!(left, other);
            left.0
        };
        for (score, pair) in &mut self.asked {
            let m = score.theme.len();
            let expected = if matches!(case, Case::LastAbsent) { 13 } else { 0 };
            assert_eq!(same(score, way, *pair, MOST_NOTES), expected);
            assert_eq!(same(score, way, *pair, m), expected);
            assert_eq!(same(score, way, *pair, m - 1), if expected == 0 { 14 } else { 13 });
            for _ in 0..20 {
                let n = score.cells.len() / h;
                let column = if random.below(2) == 0 { pair.column } else { random.below(n + 2) as u16 };
                let shift = if random.below(2) == 0 { pair.shift } else { random.below(260) as i16 - 130 };
                for way in [way, Way::Exact.into(), Way::Octave.into(), AnyWay::Written] {
                    same(score, way, Pair { column, shift }, m + random.below(3));
                }
            }
            // the same tune in its own key
            if way == Way::Exact.into() && expected == 0 {
                score.theme.iter_mut().for_each(|p| *p = p.wrapping_add_signed(pair.shift as i8));
                assert_eq!(same(score, AnyWay::Written, Pair { shift: 0, ..*pair }, m), 0);
                score.theme.iter_mut().for_each(|p| *p = p.wrapping_add_signed(-pair.shift as i8));
            }
        }
    }
}

struct Row {
    way: &'static str,
    h: usize,
    m: usize,
    n: usize,
    /// nanoseconds a call, by `CASES` and then by `CALLS`
    t: [[f64; 2]; 3],
}

/// All routes of a kind of scores.
pub struct Routes(Vec<Row>);

impl Routes {
    pub fn new(kind: Kind) -> Routes {
        let mut random = Random(0x5eed_0707_e5ed_0615);
        let mut rows = Vec::new();
        for (way, name) in [(Way::Exact, "exact"), (Way::Octave, "octave")] {
            for h in TRACKS {
                for m in NOTES {
                    for n in COLUMNS {
                        let t = CASES.map(|case| {
                            let mut input = Input::new(case, kind, h, m, n, way, &mut random);
                            input.compare(case, &mut random);
                            medians(&mut input, CALLS).map(|t| t / (TOTAL / n) as f64)
                        });
                        rows.push(Row { way: name, h, m, n, t });
                    }
                }
            }
        }
        Routes(rows)
    }

    pub fn say(&self) {
        println!("The route of a pair, nanoseconds a call, with the checks of the score and the theme; medians of {ROUNDS}");
        println!("rounds. `x` is the library by the Rust.\n");
        print!("| way | h | m | n | notes alone: lib | rust | x | notes doubled: lib | rust | x |");
        println!(" last note absent: lib | rust | x |\n|---|{}", "--:|".repeat(12));
        let mut ratios: [Ratios; 3] = Default::default();
        for r in &self.0 {
            print!("| {} | {} | {} | {} |", r.way, r.h, r.m, r.n);
            for ([lib, rust], ratios) in r.t.iter().zip(&mut ratios) {
                print!(" {lib:.0} | {rust:.0} | {:.2} |", ratios.add(lib / rust));
            }
            println!();
        }
        println!("\nRatios, library by Rust, over the {} inputs; the target is at most 1.25.\n", self.0.len());
        println!("| | least | median | geometric mean | most | over 1.25 |\n|---|--:|--:|--:|--:|--:|");
        let [alone, doubled, last_absent] = &mut ratios;
        alone.say("route, notes alone");
        doubled.say("route, notes doubled");
        last_absent.say("route, last note absent");
    }
}
