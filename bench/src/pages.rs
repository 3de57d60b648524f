//! Preparation and pages: the library and the Rust in tables.

use crate::rust_finder::{self, Bits, Direct};
use crate::scores::{Kind, Random, Score, ALL_CLASSES, COLUMNS, NOTES, TOTAL, TRACKS};
use crate::timing::{keep, medians, Ratios, ROUNDS};
use finder::{AnyWay, Page, Refusal, Summary, Way, TABLE_LEN};
use std::hint::black_box;

/// As many scores as make 2,048 columns, each with a theme that stands in it, and what a call is lent. The way is a `Way`,
/// or an `AnyWay` for what only the plain page takes.
struct Input<W> {
    h: usize,
    m: usize,
    n: usize,
    way: W,
    scores: Vec<Score>,
    lent: Lent,
}

#[derive(Clone, PartialEq, Debug)]
struct Lent {
    table: Vec<u32>,
    columns: Vec<u16>,
    shifts: Vec<i16>,
}

/// A page call, by one of the finders.
type Turn<W> = fn(&Score, usize, W, &mut Lent) -> Result<Page, Refusal>;

fn lib_plain(s: &Score, h: usize, way: impl Into<AnyWay>, lent: &mut Lent) -> Result<Page, Refusal> {
    let way = way.into();
    finder::plain_page(&s.cells, h, &s.theme, way, way.first(), &mut lent.columns, &mut lent.shifts)
}

fn lib_quick(s: &Score, h: usize, way: Way, lent: &mut Lent) -> Result<Page, Refusal> {
    let Lent { table, columns, shifts } = lent;
    finder::quick_page(&s.cells, h, &s.theme, way, way.first(), &s.sets, table, columns, shifts)
}

/// A quick page of a score of one column, in which the theme has no room: the fill, and the checks of little.
fn lib_fill(s: &Score, _: usize, way: Way, lent: &mut Lent) -> Result<Page, Refusal> {
    let Lent { table, columns, shifts } = lent;
    finder::quick_page(&[60], 1, &s.theme, way, way.first(), &[], table, &mut columns[..1], &mut shifts[..1])
}

fn rust_plain<'a, C: rust_finder::Check<'a>>(s: &'a Score, h: usize, way: Way, lent: &mut Lent) -> Result<Page, Refusal> {
    rust_finder::plain_page::<C>(&s.cells, h, &s.theme, way, way.first(), &mut lent.columns, &mut lent.shifts)
}

fn rust_quick<'a, C: rust_finder::Check<'a>>(s: &'a Score, h: usize, way: Way, lent: &mut Lent) -> Result<Page, Refusal> {
    let Lent { table, columns, shifts } = lent;
    rust_finder::quick_page::<C>(&s.cells, h, &s.theme, way, way.first(), &s.sets, table, columns, shifts)
}

fn rust_written(s: &Score, h: usize, way: AnyWay, lent: &mut Lent) -> Result<Page, Refusal> {
    rust_finder::written_page(&s.cells, h, &s.theme, way.first(), &mut lent.columns, &mut lent.shifts)
}

impl<W: Copy> Input<W> {
    fn new(kind: Kind, h: usize, m: usize, n: usize, way: W, moved: u8, random: &mut Random) -> Input<W> {
        let scores = (0..TOTAL / n).map(|_| Score::new(kind, ALL_CLASSES, h, m, n, moved, random)).collect();
        // room for every pair, so that a page is the whole list
        let room = n * 17;
        Input { h, m, n, way, scores, lent: Lent { table: vec![0; TABLE_LEN], columns: vec![0; room], shifts: vec![0; room] } }
    }

    fn each(&mut self, call: impl Fn(&Score, usize, W, &mut Lent)) {
        for score in &self.scores {
            call(score, self.h, self.way, &mut self.lent);
        }
    }

    /// A page, and the lent buffers after it.
    fn left(&self, score: &Score, turn: Turn<W>) -> (Page, Lent) {
        let mut lent = self.lent.clone();
        lent.columns.fill(9);
        lent.shifts.fill(9);
        let page = turn(score, self.h, self.way, &mut lent).unwrap();
        assert!(page.written > 0 && page.finished);
        (page, lent)
    }
}

impl Input<Way> {
    /// The same answers, and the same contents of every lent buffer.
    fn compare(&self) -> (u64, u64) {
        let mut looks = (0, 0);
        for score in &self.scores {
            let left = |turn: Turn<Way>| self.left(score, turn);
            let (plain, quick) = (left(lib_plain), left(lib_quick));
            assert_eq!((&quick.1.columns, &quick.1.shifts), (&plain.1.columns, &plain.1.shifts));
            assert!(plain == left(|s, h, way, lent| rust_plain::<Direct>(s, h, way, lent)));
            assert!(plain == left(|s, h, way, lent| rust_plain::<Bits>(s, h, way, lent)));
            assert!(quick == left(|s, h, way, lent| rust_quick::<Direct>(s, h, way, lent)));
            assert!(quick == left(|s, h, way, lent| rust_quick::<Bits>(s, h, way, lent)));
            let mut sets = vec![0; self.n - 1];
            let summary = rust_finder::prepare(&score.cells, self.h, &mut sets);
            assert_eq!((summary, &sets), (Ok(score.summary), &score.sets));
            looks = (looks.0 + u64::from(plain.0.looks), looks.1 + u64::from(quick.0.looks));
        }
        looks
    }
}

impl Input<AnyWay> {
    /// The same answers, and the same contents of every lent buffer.
    fn compare(&self) {
        for score in &self.scores {
            assert!(self.left(score, lib_plain) == self.left(score, rust_written));
        }
    }
}

/// The calls that are timed, in order, each on all scores of the input.
const CALLS: [fn(&mut Input<Way>); 10] = [
    |i| prepare(i, |s, h, sets| finder::prepare(&s.cells, h, sets)),
    |i| prepare(i, |s, h, sets| rust_finder::prepare(&s.cells, h, sets)),
    |i| i.each(|s, h, way, lent| keep(lib_plain(s, h, way, lent))),
    |i| i.each(|s, h, way, lent| keep(rust_plain::<Direct>(s, h, way, lent))),
    |i| i.each(|s, h, way, lent| keep(rust_plain::<Bits>(s, h, way, lent))),
    |i| i.each(|s, h, way, lent| keep(lib_quick(s, h, way, lent))),
    |i| i.each(|s, h, way, lent| keep(lib_fill(s, h, way, lent))),
    |i| i.each(|s, h, way, lent| keep(rust_quick::<Direct>(s, h, way, lent))),
    |i| i.each(|s, h, way, lent| keep(rust_quick::<Bits>(s, h, way, lent))),
    |i| i.each(|s, _, _, lent| rust_finder::fill(black_box(&s.theme), &mut lent.table)),
];

/// The same for the tune in its own key.
const WRITTEN_CALLS: [fn(&mut Input<AnyWay>); 2] = [
    |i| i.each(|s, h, way, lent| keep(lib_plain(s, h, way, lent))),
    |i| i.each(|s, h, way, lent| keep(rust_written(s, h, way, lent))),
];

fn prepare(i: &mut Input<Way>, call: impl Fn(&Score, usize, &mut [u16]) -> Result<Summary, Refusal>) {
    let to = &mut i.lent.columns[..i.n - 1];
    for score in &i.scores {
        keep(call(score, i.h, to));
    }
}

struct Row {
    way: &'static str,
    h: usize,
    m: usize,
    n: usize,
    looks: (u64, u64),
    /// nanoseconds for all scores, by `CALLS`
    t: [f64; 10],
}

impl Row {
    fn lib_quick(&self) -> f64 {
        self.t[5] - self.t[6]
    }
    fn direct_quick(&self) -> f64 {
        self.t[7] - self.t[9]
    }
    fn bits_quick(&self) -> f64 {
        self.t[8] - self.t[9]
    }
}

/// All measurements of a kind of scores.
pub struct Timed {
    rows: Vec<Row>,
    /// h, m, n, and nanoseconds for all scores, by `WRITTEN_CALLS`
    written: Vec<(usize, usize, usize, [f64; 2])>,
}

impl Timed {
    pub fn new(kind: Kind) -> Timed {
        // the same scores in every run, whichever kinds it has
        let mut random = Random(0x5eed_0123_4567_89ab);
        let mut rows = Vec::new();
        for way in [Way::Exact, Way::Octave] {
            for h in TRACKS {
                for m in NOTES {
                    for n in COLUMNS {
                        let mut input = Input::new(kind, h, m, n, way, 7, &mut random);
                        let looks = input.compare();
                        let way = if way == Way::Exact { "exact" } else { "octave" };
                        rows.push(Row { way, h: input.h, m: input.m, n: input.n, looks, t: medians(&mut input, CALLS) });
                    }
                }
            }
        }
        let mut written = Vec::new();
        for h in TRACKS {
            for m in NOTES {
                for n in COLUMNS {
                    let mut input = Input::new(kind, h, m, n, AnyWay::Written, 0, &mut random);
                    input.compare();
                    written.push((h, m, n, medians(&mut input, WRITTEN_CALLS)));
                }
            }
        }
        Timed { rows, written }
    }

    /// The times of each call, and the library's by the Rust's. Beside other scores' times stands the library's by its own
    /// for full scores.
    pub fn say(&self, full: Option<&Timed>) {
        let more = |head: &'static str| if full.is_some() { head } else { "" };
        println!(
            "Nanoseconds a column, medians of {ROUNDS} rounds. `lib` is the library, `rust`, `direct` and `bits` the Rust, `x` \
             the library by that Rust{}.\n",
            more(", `by full` the library by itself where every column has a pitch"),
        );
        println!(
            "| way | h | m | n | prepare: lib | rust | x |{} plain: lib | direct | x | bits | x |{} \
             quick, no fill: lib | direct | x | bits | x | quick by plain |{}",
            more(" by full |"), more(" by full |"), more(" by full |"),
        );
        println!("|---|{}", "--:|".repeat(if full.is_some() { 20 } else { 17 }));
        let c = |time: f64| time / TOTAL as f64;
        let mut ratios: [Ratios; 11] = Default::default();
        let [prepared, plain_direct, plain_bits, quick_direct, quick_bits, own_key, gain, by_full @ ..] = &mut ratios;
        let [prepared_by_full, plain_by_full, quick_by_full, own_key_by_full] = by_full;
        for (at, r) in self.rows.iter().enumerate() {
            let (t, f) = (&r.t, full.map(|full| &full.rows[at]));
            let (direct, bits) = (r.direct_quick(), r.bits_quick());
            print!("| {} | {} | {} | {} |", r.way, r.h, r.m, r.n);
            print!(" {:.2} | {:.2} | {:.2} |", c(t[0]), c(t[1]), prepared.add(t[0] / t[1]));
            f.inspect(|f| print!(" {:.2} |", prepared_by_full.add(t[0] / f.t[0])));
            print!(" {:.2} | {:.2} | {:.2} |", c(t[2]), c(t[3]), plain_direct.add(t[2] / t[3]));
            print!(" {:.2} | {:.2} |", c(t[4]), plain_bits.add(t[2] / t[4]));
            f.inspect(|f| print!(" {:.2} |", plain_by_full.add(t[2] / f.t[2])));
            print!(" {:.2} | {:.2} | {:.2} |", c(r.lib_quick()), c(direct), quick_direct.add(r.lib_quick() / direct));
            print!(" {:.2} | {:.2} |", c(bits), quick_bits.add(r.lib_quick() / bits));
            print!(" {:.2} |", gain.add(r.lib_quick() / t[2]));
            f.inspect(|f| print!(" {:.2} |", quick_by_full.add(r.lib_quick() / f.lib_quick())));
            println!();
        }

        println!("\nThe tune in its own key, a plain page, in the same units.\n");
        println!("| h | m | n | lib | rust | x |{}\n|--:|--:|--:|--:|--:|--:|{}", more(" by full |"), more("--:|"));
        for (at, (h, m, n, [lib, rust])) in self.written.iter().enumerate() {
            print!("| {h} | {m} | {n} | {:.2} | {:.2} | {:.2} |", c(*lib), c(*rust), own_key.add(lib / rust));
            full.inspect(|full| print!(" {:.2} |", own_key_by_full.add(lib / full.written[at].3[0])));
            println!();
        }

        let (moved, own) = (self.rows.len(), self.written.len());
        println!(
            "\nRatios, library by Rust, over the {moved} inputs, for written over its {own}; the target is at most 1.25{}.\n",
            more("; then the library by itself where every column has a pitch"),
        );
        println!("| | least | median | geometric mean | most | over 1.25 |\n|---|--:|--:|--:|--:|--:|");
        prepared.say("prepare");
        plain_direct.say("plain page, direct Rust");
        plain_bits.say("plain page, bit-parallel Rust");
        quick_direct.say("quick page without the fill, direct Rust");
        quick_bits.say("quick page without the fill, bit-parallel Rust");
        own_key.say("plain page, written");
        gain.say("quick without the fill by plain (no target)");
        if full.is_some() {
            prepared_by_full.say("prepare, by full scores");
            plain_by_full.say("plain page, by full scores");
            quick_by_full.say("quick page without the fill, by full scores");
            own_key_by_full.say("plain page, written, by full scores");
        }
    }

    pub fn say_fill(&self) {
        println!("\nThe theme table's fill, nanoseconds a call, whatever the score: medians over the inputs.\n");
        println!("| m | lib | rust | x |\n|--:|--:|--:|--:|");
        for m in NOTES {
            let of = |k: usize| {
                let rows = self.rows.iter().filter(|r| r.m == m);
                let mut s: Vec<f64> = rows.map(|r| r.t[k] * r.n as f64 / TOTAL as f64).collect();
                s.sort_by(f64::total_cmp);
                s[s.len() / 2]
            };
            println!("| {m} | {:.0} | {:.0} | {:.2} |", of(6), of(9), of(6) / of(9));
        }
    }

    pub fn say_growth(&self) {
        println!(
            "\nThe library's cost as n grows: nanoseconds at n = 64, 512 and 2,048, and the last by the first. Preparation for \
             each column, pages for each of the n - m + 1 columns where the theme has room.\n"
        );
        println!("| way | h | m | prepare | x | plain | x | quick, no fill | x |\n|---|--:|--:|--:|--:|--:|--:|--:|--:|");
        for group in self.rows.chunks(COLUMNS.len()) {
            let line = |f: &dyn Fn(&Row) -> f64, columns: &dyn Fn(&Row) -> usize| {
                let v: Vec<f64> = group.iter().map(|r| f(r) / (TOTAL / r.n * columns(r)) as f64).collect();
                format!("{:.1} {:.1} {:.1} | {:.2}", v[0], v[1], v[2], v[2] / v[0])
            };
            let room = |r: &Row| r.n - r.m + 1;
            println!(
                "| {} | {} | {} | {} | {} | {} |",
                group[0].way, group[0].h, group[0].m,
                line(&|r| r.t[0], &|r| r.n), line(&|r| r.t[2], &room), line(&Row::lib_quick, &room),
            );
        }
    }

    pub fn say_looks(&self) {
        println!("\nLooks of the whole list at n = 2,048.\n\n| way | h | m | plain | quick |\n|---|--:|--:|--:|--:|");
        for r in self.rows.iter().filter(|r| r.n == TOTAL) {
            println!("| {} | {} | {} | {} | {} |", r.way, r.h, r.m, r.looks.0, r.looks.1);
        }
    }
}
