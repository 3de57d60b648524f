//! The same work in Rust, written for speed and apart from the library: its own checks, preparation, filter and two ways to
//! check a column. Only the theme table is filled by the library's method.
//!
//! `Direct` goes from start to start and looks for each note among a column's cells, as the library does. `Bits` takes
//! all starts of a column at once: a column's pitches are the bits of one word, a note moves the word, and what is left
//! after an `and` are the starts that still follow. The looks are then counted by bits.
//!
//! The tune in its own key has a page of its own, by a word for each byte and a register. `question` says whether a theme
//! occurs at all, `update` brings the sets up to date after a column was changed, `explanation` says why a pair is listed or not,
//! and `route` who plays it.
//!
//! A column without a pitch is passed over. A score in which there is none is walked along as it stands; for any other the
//! numbers of the columns with a pitch are listed first, and the walk goes along that list.

mod explanation;
mod question;
mod route;
mod update;

pub use explanation::{explain, EXPLAIN_LEN};
use finder::{AnyWay, Bookmark, Page, Refusal, Summary, Way};
pub use question::occurs;
pub use route::route;
use std::ops::Range;
pub use update::update;

type Answer = Result<Page, Refusal>;

fn refuse<T>(number: u8, place: usize) -> Result<T, Refusal> {
    Err(Refusal { number, place })
}

/// The class of each byte as a bit; none for what is no pitch.
const CLASS: [u16; 256] = {
    let mut bits = [0; 256];
    let mut t = 0;
    while t < 128 {
        bits[t] = 1 << (t % 12);
        t += 1;
    }
    bits
};

/// Twelve bits turned down by k, 0 to 11.
#[inline]
fn turned(bits: u16, k: u32) -> u16 {
    ((u32::from(bits) * 4097 >> k) & 4095) as u16
}

// ---- checks

fn check_score(cells: &[u8], tracks: usize) -> Result<usize, Refusal> {
    if !(1..=16).contains(&tracks) {
        return refuse(1, 0);
    }
    let n = cells.len() / tracks;
    if cells.len() % tracks != 0 || !(1..=2048).contains(&n) {
        return refuse(2, 0);
    }
    let bad = |c: &u8| (128..=254).contains(c);
    // all at once, which the compiler turns into wide instructions; the place is looked for only where there is one
    if cells.iter().fold(false, |any, c| any | bad(c)) {
        return refuse(3, cells.iter().position(bad).unwrap());
    }
    Ok(n)
}

fn check_theme(theme: &[u8]) -> Result<(), Refusal> {
    if !(2..=32).contains(&theme.len()) {
        return refuse(4, 0);
    }
    match theme.iter().position(|p| *p > 127) {
        Some(at) => refuse(5, at),
        None => Ok(()),
    }
}

fn check_sets(sets: &[u16], n: usize) -> Result<(), Refusal> {
    if sets.len() != n - 1 {
        return refuse(6, 0);
    }
    if sets.iter().fold(false, |any, s| any | (*s > 4095)) {
        return refuse(7, sets.iter().position(|s| *s > 4095).unwrap());
    }
    Ok(())
}

fn check_page(way: AnyWay, n: usize, b: Bookmark, columns: usize, shifts: usize) -> Result<(), Refusal> {
    if columns == 0 || columns != shifts {
        return refuse(9, 0);
    }
    let range = match way {
        AnyWay::Moved(Way::Exact) => -127..=128,
        AnyWay::Moved(Way::Octave) => 0..=12,
        AnyWay::Written => 0..=1,
    };
    if b.column == 0 || usize::from(b.column) > n + 1 || !range.contains(&b.shift) {
        return refuse(10, 0);
    }
    Ok(())
}

// ---- the columns with a pitch

/// The columns with a pitch, each by its place among them. Places and the columns' own numbers are counted from 0.
pub trait Heard {
    fn count(&self) -> usize;
    fn number(&self, at: usize) -> usize;
    /// The place of the first with this number or a higher one.
    fn first_from(&self, number: usize) -> usize;
    /// The cells of each from a place on.
    fn columns<'s>(&'s self, at: usize, cells: &'s [u8], tracks: usize) -> impl Iterator<Item = &'s [u8]> + Clone;
    /// The sets of those at some places.
    fn sets<'s>(&'s self, at: Range<usize>, sets: &'s [u16]) -> impl Iterator<Item = u16>;
}

/// Every one of so many columns.
struct Every(usize);

impl Heard for Every {
    #[inline]
    fn count(&self) -> usize {
        self.0
    }
    #[inline]
    fn number(&self, at: usize) -> usize {
        at
    }
    #[inline]
    fn first_from(&self, number: usize) -> usize {
        number
    }
    #[inline]
    fn columns<'s>(&'s self, at: usize, cells: &'s [u8], tracks: usize) -> impl Iterator<Item = &'s [u8]> + Clone {
        cells[at * tracks..].chunks_exact(tracks)
    }
    #[inline]
    fn sets<'s>(&'s self, at: Range<usize>, sets: &'s [u16]) -> impl Iterator<Item = u16> {
        sets[at].iter().copied()
    }
}

/// The columns of these numbers.
struct Listed<'a>(&'a [u16]);

impl Heard for Listed<'_> {
    #[inline]
    fn count(&self) -> usize {
        self.0.len()
    }
    #[inline]
    fn number(&self, at: usize) -> usize {
        usize::from(self.0[at])
    }
    #[inline]
    fn first_from(&self, number: usize) -> usize {
        self.0.partition_point(|k| usize::from(*k) < number)
    }
    #[inline]
    fn columns<'s>(&'s self, at: usize, cells: &'s [u8], tracks: usize) -> impl Iterator<Item = &'s [u8]> + Clone {
        self.0[at..].iter().map(move |k| &cells[usize::from(*k) * tracks..][..tracks])
    }
    #[inline]
    fn sets<'s>(&'s self, at: Range<usize>, sets: &'s [u16]) -> impl Iterator<Item = u16> {
        self.0[at].iter().map(|k| sets[usize::from(*k)])
    }
}

/// Whether a column has no pitch. Its first and its last cell are seldom both rests, so that the others are seldom asked.
#[inline]
fn empty(column: &[u8]) -> bool {
    column[0] & column[column.len() - 1] > 127 && (column.len() < 3 || column.iter().all(|c| *c > 127))
}

/// Whether every column has a pitch: four columns go together.
fn all_heard(cells: &[u8], tracks: usize) -> bool {
    if tracks == 1 {
        return cells.iter().fold(0, |any, c| any | c) < 128;
    }
    let mut fours = cells.chunks_exact(4 * tracks);
    fours.by_ref().all(|four| {
        let both = |k: usize| four[k * tracks] & four[k * tracks + 1];
        both(0) | both(1) | both(2) | both(3) < 128 || !four.chunks_exact(tracks).any(empty)
    }) && !fours.remainder().chunks_exact(tracks).any(empty)
}

/// Room for the numbers of the columns with a pitch.
type List = [u16; 2048];

fn listed<'a>(cells: &[u8], tracks: usize, list: &'a mut List) -> Listed<'a> {
    let mut count = 0;
    // what stands at the end of the list is written over where the column is empty
    let mut put = |k: usize, heard: bool| {
        list[count] = k as u16;
        count += usize::from(heard);
    };
    if tracks == 1 {
        cells.iter().enumerate().for_each(|(k, cell)| put(k, *cell < 128));
    } else {
        cells.chunks_exact(tracks).enumerate().for_each(|(k, column)| put(k, !empty(column)));
    }
    Listed(&list[..count])
}

// ---- preparation

#[inline]
fn classes(column: &[u8]) -> u16 {
    if column.len() < 8 {
        return column.iter().fold(0, |bits, c| bits | CLASS[usize::from(*c)]);
    }
    // no look-up, so that eight cells go together
    column.iter().fold(0, |bits, c| bits | if *c < 128 { 1 << (c % 12) } else { 0 })
}

/// The set of two columns by their classes: bit by bit of the earlier where they are few, otherwise all twelve together.
#[inline]
fn set_of(earlier: u16, later: u16, few: bool) -> u16 {
    let twice = u32::from(later) * 4097;
    let mut reached = 0;
    if few {
        let mut left = earlier;
        while left != 0 {
            reached |= twice >> left.trailing_zeros();
            left &= left - 1;
        }
    } else {
        for k in 0..12 {
            reached |= if earlier >> k & 1 == 1 { twice >> k } else { 0 };
        }
    }
    !reached as u16 & 4095
}

/// The intervals that some set has.
fn summary_of(sets: &[u16]) -> Summary {
    Summary(sets.iter().fold(4095, |all, set| all & set))
}

pub fn prepare(cells: &[u8], tracks: usize, sets: &mut [u16]) -> Result<Summary, Refusal> {
    let n = check_score(cells, tracks)?;
    if sets.len() != n - 1 {
        return refuse(6, 0);
    }
    if n == cells.len() {
        one_track(cells, sets);
    } else {
        more_tracks(cells, tracks, sets);
    }
    Ok(summary_of(sets))
}

fn more_tracks(cells: &[u8], tracks: usize, sets: &mut [u16]) {
    sets.fill(4095);
    let mut columns = cells.chunks_exact(tracks);
    let mut earlier = classes(columns.next().unwrap());
    // the place of the set that waits for the next column with a pitch
    let mut waits = 0;
    for (k, column) in columns.enumerate() {
        let later = classes(column);
        if later != 0 {
            sets[waits] = set_of(earlier, later, tracks < 3);
            (waits, earlier) = (k + 1, later);
        }
    }
}

/// From the end on, so that the next pitch is known and no test stands between the columns. Where there is no class, of a rest
/// or behind the last pitch, the set has no interval.
fn one_track(cells: &[u8], sets: &mut [u16]) {
    let mut classes = cells.iter().rev().map(|c| CLASS[usize::from(*c)]);
    let mut later = classes.next().unwrap();
    for (set, earlier) in sets.iter_mut().rev().zip(classes) {
        *set = set_of(earlier, later, true);
        later = if earlier == 0 { later } else { earlier };
    }
}

// ---- the theme table

/// From 4095, the set of no interval, downward: each word is that of the set without its lowest interval, which is a larger
/// number, less the places of that interval. Of an even set that is interval 0. With 64 words and the masks no index is
/// checked. Inlined wherever it is called, also where it is timed by itself, so that what is taken off a page is what the
/// page took.
#[inline(always)]
pub fn fill(theme: &[u8], table: &mut [u32]) {
    let table: &mut [u32; 4096] = table.try_into().unwrap();
    let mut words = [!0u32; 64];
    for (i, two) in theme.windows(2).enumerate() {
        words[(usize::from(two[1]) + 132 - usize::from(two[0])) % 12] ^= 1 << i;
    }
    (table[4095], table[4094]) = (!0, words[0]);
    let mut even = 4094;
    while even > 0 {
        even -= 2;
        let odd = even + 1;
        let word = table[(odd | (odd + 1)) & 4095] & words[odd.trailing_ones() as usize & 63];
        table[odd & 4095] = word;
        table[even & 4095] = word & words[0];
    }
}

// ---- a page under way

pub struct Out<'a> {
    columns: &'a mut [u16],
    shifts: &'a mut [i16],
    found: usize,
    looks: u32,
}

impl Out<'_> {
    /// Writes a pair; whether the page is full.
    #[inline]
    fn put(&mut self, j: usize, c: i32) -> bool {
        self.columns[self.found] = j as u16;
        self.shifts[self.found] = c as i16;
        self.found += 1;
        self.found == self.columns.len()
    }

    fn page(&self, way: AnyWay, n: usize) -> Page {
        let full = self.found == self.columns.len();
        let next = if full {
            Bookmark { column: self.columns[self.found - 1], shift: self.shifts[self.found - 1] + 1 }
        } else {
            Bookmark { column: n as u16 + 1, ..way.first() }
        };
        Page { written: self.found, next, finished: !full, looks: self.looks }
    }
}

/// How the starts of a column are checked. The column is told by its place among those with a pitch, and the theme has room
/// there; `from` is the first shift to consider. Whether the page is then full.
pub trait Check<'a> {
    fn new(cells: &'a [u8], tracks: usize, theme: &'a [u8], way: Way) -> Self;
    fn column(&mut self, heard: &impl Heard, at: usize, from: i32, out: &mut Out) -> bool;
}

/// Where a bookmark lets a walk begin: the first column with a pitch from its own on, and the first shift there, which is
/// the lowest where the bookmark's own column has no pitch.
#[inline]
fn begin(heard: &impl Heard, b: Bookmark, lowest: i32) -> (usize, i32) {
    let number = usize::from(b.column) - 1;
    let first = heard.first_from(number);
    let there = first < heard.count() && heard.number(first) == number;
    (first, if there { i32::from(b.shift) } else { lowest })
}

fn plain_walk<'a, C: Check<'a>>(mut check: C, heard: &impl Heard, m: usize, b: Bookmark, lowest: i32, out: &mut Out) {
    let (first, mut from) = begin(heard, b, lowest);
    for at in first..(heard.count() + 1).saturating_sub(m) {
        if check.column(heard, at, from, out) {
            return;
        }
        from = lowest;
    }
}

#[allow(clippy::too_many_arguments)]
fn quick_walk<'a, C: Check<'a>>(
    mut check: C,
    heard: &impl Heard,
    sets: &[u16],
    table: &[u32; 4096],
    m: usize,
    b: Bookmark,
    lowest: i32,
    out: &mut Out,
) {
    let (first, mut from) = begin(heard, b, lowest);
    if first + m > heard.count() {
        return;
    }
    let mut register = !0u32;
    for set in heard.sets(first..first + m - 2, sets) {
        register = register << 1 | table[usize::from(set & 4095)];
    }
    // the set of the last column with a pitch is not asked for: too few columns are left for what it could end
    for (at, set) in heard.sets(first + m - 2..heard.count() - 1, sets).enumerate() {
        register = register << 1 | table[usize::from(set & 4095)];
        if register >> (m - 2) & 1 == 0 && check.column(heard, first + at, from, out) {
            return;
        }
        from = lowest;
    }
}

#[allow(clippy::too_many_arguments)]
pub fn plain_page<'a, C: Check<'a>>(
    cells: &'a [u8],
    tracks: usize,
    theme: &'a [u8],
    way: Way,
    b: Bookmark,
    columns: &mut [u16],
    shifts: &mut [i16],
) -> Answer {
    let n = check_score(cells, tracks)?;
    check_theme(theme)?;
    check_page(way.into(), n, b, columns.len(), shifts.len())?;
    let mut out = Out { columns, shifts, found: 0, looks: 0 };
    let (check, m, lowest) = (C::new(cells, tracks, theme, way), theme.len(), i32::from(way.first().shift));
    if all_heard(cells, tracks) {
        plain_walk(check, &Every(n), m, b, lowest, &mut out);
    } else {
        plain_walk(check, &listed(cells, tracks, &mut [0; 2048]), m, b, lowest, &mut out);
    }
    Ok(out.page(way.into(), n))
}

#[allow(clippy::too_many_arguments)]
pub fn quick_page<'a, C: Check<'a>>(
    cells: &'a [u8],
    tracks: usize,
    theme: &'a [u8],
    way: Way,
    b: Bookmark,
    sets: &[u16],
    table: &mut [u32],
    columns: &mut [u16],
    shifts: &mut [i16],
) -> Answer {
    let n = check_score(cells, tracks)?;
    check_theme(theme)?;
    check_sets(sets, n)?;
    let Ok(table) = <&mut [u32; 4096]>::try_from(table) else { return refuse(8, 0) };
    check_page(way.into(), n, b, columns.len(), shifts.len())?;
    fill(theme, table);
    let mut out = Out { columns, shifts, found: 0, looks: 0 };
    let (check, m, lowest) = (C::new(cells, tracks, theme, way), theme.len(), i32::from(way.first().shift));
    if all_heard(cells, tracks) {
        quick_walk(check, &Every(n), sets, table, m, b, lowest, &mut out);
    } else {
        quick_walk(check, &listed(cells, tracks, &mut [0; 2048]), sets, table, m, b, lowest, &mut out);
    }
    Ok(out.page(way.into(), n))
}

// ---- the direct check

pub struct Direct<'a> {
    cells: &'a [u8],
    tracks: usize,
    theme: &'a [u8],
    way: Way,
}

impl<'a> Check<'a> for Direct<'a> {
    fn new(cells: &'a [u8], tracks: usize, theme: &'a [u8], way: Way) -> Self {
        Direct { cells, tracks, theme, way }
    }

    #[inline]
    fn column(&mut self, heard: &impl Heard, at: usize, from: i32, out: &mut Out) -> bool {
        let j = heard.number(at) + 1;
        let mut onward = heard.columns(at, self.cells, self.tracks);
        let here = onward.next().unwrap();
        let first = i32::from(self.theme[0]);
        match self.way {
            Way::Exact => {
                let mut left = pitches(here);
                let below = from + first;
                if below > 0 {
                    left &= u128::MAX.checked_shl(below as u32).unwrap_or(0);
                }
                while left != 0 {
                    let c = left.trailing_zeros() as i32 - first;
                    left &= left - 1;
                    let mut hit = true;
                    for (p, column) in self.theme[1..].iter().zip(onward.clone()) {
                        out.looks += 1;
                        let want = i32::from(*p) + c;
                        if !(0..128).contains(&want) || !column.iter().any(|t| i32::from(*t) == want) {
                            hit = false;
                            break;
                        }
                    }
                    if hit && out.put(j, c) {
                        return true;
                    }
                }
            }
            Way::Octave => {
                let mut left = turned(classes(here), first as u32 % 12);
                if from > 0 {
                    left &= !((1u16 << from) - 1);
                }
                while left != 0 {
                    let c = left.trailing_zeros();
                    left &= left - 1;
                    let mut hit = true;
                    for (p, column) in self.theme[1..].iter().zip(onward.clone()) {
                        out.looks += 1;
                        let want = CLASS[(u32::from(*p) % 12 + c) as usize % 12];
                        if !column.iter().any(|t| CLASS[usize::from(*t)] == want) {
                            hit = false;
                            break;
                        }
                    }
                    if hit && out.put(j, c as i32) {
                        return true;
                    }
                }
            }
        }
        false
    }
}

/// The pitches of a column as the bits of a word.
#[inline]
fn pitches(column: &[u8]) -> u128 {
    column.iter().fold(0, |bits, t| if *t < 128 { bits | 1 << t } else { bits })
}

// ---- all starts of a column at once

pub struct Bits<'a> {
    cells: &'a [u8],
    tracks: usize,
    way: Way,
    /// how far each note moves a column's word: from the first note, or the class of the note
    moves: [i32; 32],
    m: usize,
    /// the words of the columns seen, by place among those with a pitch modulo 64, with the place each is of
    words: [u128; 64],
    of: [u32; 64],
}

impl<'a> Check<'a> for Bits<'a> {
    fn new(cells: &'a [u8], tracks: usize, theme: &'a [u8], way: Way) -> Self {
        let mut moves = [0; 32];
        for (to, p) in moves.iter_mut().zip(theme) {
            *to = match way {
                Way::Exact => i32::from(*p) - i32::from(theme[0]),
                Way::Octave => i32::from(*p) % 12,
            };
        }
        if way == Way::Exact {
            moves[0] = i32::from(theme[0]);
        }
        Bits { cells, tracks, way, moves, m: theme.len(), words: [0; 64], of: [u32::MAX; 64] }
    }

    #[inline]
    fn column(&mut self, heard: &impl Heard, at: usize, from: i32, out: &mut Out) -> bool {
        match self.way {
            Way::Exact => {
                let first = self.moves[0];
                let mut starts = self.word(heard, at);
                if from + first > 0 {
                    starts &= u128::MAX.checked_shl((from + first) as u32).unwrap_or(0);
                }
                self.all(heard, at, starts, first, out, |word, d| if d >= 0 { word >> d } else { word << -d })
            }
            Way::Octave => {
                let starts = turned(self.word(heard, at) as u16, self.moves[0] as u32);
                let starts = if from > 0 { starts & !((1u16 << from) - 1) } else { starts };
                self.all(heard, at, u128::from(starts), 0, out, |word, d| u128::from(turned(word as u16, d as u32)))
            }
        }
    }
}

impl Bits<'_> {
    /// The word of a column with a pitch, by its place among them.
    #[inline]
    fn word(&mut self, heard: &impl Heard, at: usize) -> u128 {
        let kept = at % 64;
        if self.of[kept] != at as u32 {
            let k = heard.number(at);
            let column = &self.cells[k * self.tracks..(k + 1) * self.tracks];
            self.words[kept] = match self.way {
                Way::Exact => pitches(column),
                Way::Octave => u128::from(classes(column)),
            };
            self.of[kept] = at as u32;
        }
        self.words[kept]
    }

    #[inline]
    fn follow(&mut self, heard: &impl Heard, at: usize, starts: u128, moved: impl Fn(u128, i32) -> u128) -> (u128, u32) {
        let (mut left, mut looks) = (starts, 0);
        for i in 1..self.m {
            if left == 0 {
                break;
            }
            looks += left.count_ones();
            left &= moved(self.word(heard, at + i), self.moves[i]);
        }
        (left, looks)
    }

    #[inline]
    fn all(
        &mut self,
        heard: &impl Heard,
        at: usize,
        starts: u128,
        zero: i32,
        out: &mut Out,
        moved: impl Fn(u128, i32) -> u128 + Copy,
    ) -> bool {
        let j = heard.number(at) + 1;
        let (mut hits, looks) = self.follow(heard, at, starts, moved);
        let room = out.columns.len() - out.found;
        if (hits.count_ones() as usize) < room {
            out.looks += looks;
            while hits != 0 {
                out.put(j, hits.trailing_zeros() as i32 - zero);
                hits &= hits - 1;
            }
            return false;
        }
        // the page fills here: the starts after the last pair are not reached
        for _ in 1..room {
            out.put(j, hits.trailing_zeros() as i32 - zero);
            hits &= hits - 1;
        }
        let last = hits.trailing_zeros();
        out.put(j, last as i32 - zero);
        out.looks += self.follow(heard, at, starts & (u128::MAX >> (127 - last)), moved).1;
        true
    }
}

// ---- the tune in its own key

/// For each byte a word with bit i at 0 where it is note i, counted from 0; a rest is none.
fn words(theme: &[u8]) -> [u32; 256] {
    let mut words = [!0; 256];
    for (i, p) in theme.iter().enumerate() {
        words[usize::from(*p)] &= !(1 << i);
    }
    words
}

pub fn written_page(
    cells: &[u8],
    tracks: usize,
    theme: &[u8],
    b: Bookmark,
    columns: &mut [u16],
    shifts: &mut [i16],
) -> Answer {
    let n = check_score(cells, tracks)?;
    check_theme(theme)?;
    check_page(AnyWay::Written, n, b, columns.len(), shifts.len())?;
    let words = words(theme);
    let mut out = Out { columns, shifts, found: 0, looks: 0 };
    // a shift above 0 is behind all pairs of its column
    let passed = usize::from(b.column) - usize::from(b.shift == 0);
    if passed < n && all_heard(cells, tracks) {
        written_walk(cells, tracks, &Every(n), passed, &words, theme.len(), &mut out);
    } else if passed < n {
        written_walk(cells, tracks, &listed(cells, tracks, &mut [0; 2048]), passed, &words, theme.len(), &mut out);
    }
    Ok(out.page(AnyWay::Written, n))
}

fn written_walk(cells: &[u8], tracks: usize, heard: &impl Heard, from: usize, words: &[u32; 256], m: usize, out: &mut Out) {
    let first = heard.first_from(from);
    let mut register = !0u32;
    for (at, column) in heard.columns(first, cells, tracks).enumerate() {
        let word = column.iter().fold(!0, |word, c| word & words[usize::from(*c)]);
        register = register << 1 | word;
        if register >> (m - 1) & 1 == 0 && out.put(heard.number(first + at + 1 - m) + 1, 0) {
            return;
        }
    }
}
