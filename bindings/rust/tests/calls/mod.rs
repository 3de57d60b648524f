//! Random calls: right ones, those with a changed column, and those with something wrong. Each test uses some.
#![allow(dead_code)]

use crate::third::{summary_of, Call, Lent};
use finder::{AnyWay, Bookmark, Summary, Way};

/// Xorshift, 64 bits: the same numbers in every run.
pub struct Random(pub u64);

impl Random {
    fn next(&mut self) -> u64 {
        self.0 ^= self.0 << 13;
        self.0 ^= self.0 >> 7;
        self.0 ^= self.0 << 17;
        self.0
    }

    /// A number from `low` to `high`.
    pub fn from(&mut self, low: usize, high: usize) -> usize {
        low + (self.next() >> 33) as usize % (high - low + 1)
    }

    pub fn one_in(&mut self, n: usize) -> bool {
        self.from(1, n) == 1
    }

    pub fn bytes(&mut self, len: usize, pitches: usize, rests: usize) -> Vec<u8> {
        let low = self.from(0, 128 - pitches);
        (0..len).map(|_| if rests > 0 && self.one_in(rests) { 255 } else { self.from(low, low + pitches - 1) as u8 }).collect()
    }

    /// Takes all pitches out of some columns: none, those at the front, in the middle or at the end, one in six of them or
    /// one in two.
    pub fn silence(&mut self, cells: &mut [u8], tracks: usize, n: usize) {
        let many = self.from(1, n);
        let run = match self.from(0, 7) {
            0 => 0..many,
            1 => n - many..n,
            2 => {
                let first = self.from(0, n - many);
                first..first + many
            }
            _ => 0..0,
        };
        let chance = [0, 0, 6, 2][self.from(0, 3)];
        for (k, column) in cells.chunks_exact_mut(tracks).enumerate() {
            if run.contains(&k) || chance > 0 && self.one_in(chance) {
                column.fill(255);
            }
        }
    }

    /// A call with nothing wrong: few or many pitches, with or without empty columns, a theme picked from the score or of its
    /// own, sets of this score, of another or of none, with their summary, any bookmark, any column as the changed one, and a
    /// route that is long enough.
    pub fn call(&mut self, most_tracks: usize, most_columns: usize, most_notes: usize) -> Call {
        let tracks = self.from(1, most_tracks);
        let n = self.from(1, most_columns);
        let m = self.from(2, most_notes);
        let pitches = [2, 5, 13, 30, 128][self.from(0, 4)];
        let rests = [0, 2, 9][self.from(0, 2)];
        let mut cells = self.bytes(n * tracks, pitches, rests);
        self.silence(&mut cells, tracks, n);
        let heard = heard(&cells, tracks);
        let way = [Way::Exact.into(), Way::Octave.into(), AnyWay::Written][self.from(0, 2)];
        let theme =
            if m <= heard.len() && self.one_in(2) { self.picked(&cells, tracks, m, way) } else { self.bytes(m, pitches, 0) };
        let bookmark = if self.one_in(2) {
            way.first()
        } else {
            let shift = match way {
                AnyWay::Moved(Way::Exact) => self.from(0, 255) as i16 - 127,
                AnyWay::Moved(Way::Octave) => self.from(0, 12) as i16,
                AnyWay::Written => self.from(0, 1) as i16,
            };
            let mut column = self.from(1, n + 1);
            if self.one_in(3) {
                // the first column without a pitch from there on, if there is one
                column = (column..=n).find(|k| !heard.contains(k)).unwrap_or(column);
            }
            Bookmark { column: column as u16, shift }
        };
        let room = if self.one_in(8) { n * 255 } else { self.from(1, 12) };
        let lent = Lent {
            sets: (1..n).map(|_| self.set()).collect(),
            table: vec![self.next() as u32; 4096],
            columns: vec![self.next() as u16; room],
            shifts: vec![self.next() as i16; room],
            route: vec![self.next() as u8; m + [0, 0, 1, 40][self.from(0, 3)]],
        };
        let changed = self.from(1, n) as u16;
        let mut call = Call { cells, tracks, theme, way, bookmark, summary: Summary(0), changed, lent };
        let own = call.prepare().1;
        match self.from(1, 8) {
            1 => {}
            2 => call.lent.sets.fill(0),
            // those of the columns without a pitch hold anything
            3 | 4 => (1..n).filter(|k| heard.contains(k)).for_each(|k| call.lent.sets[k - 1] = own[k - 1]),
            _ => call.lent.sets = own,
        }
        call.summary = summary_of(&call.lent.sets);
        call
    }

    fn set(&mut self) -> u16 {
        (self.from(0, 4095) & self.from(0, 4095)) as u16
    }

    /// A theme that stands in the score, moved, save mostly where it is sought as written: a note from each of so many
    /// columns with a pitch; a rest that is picked gives any pitch.
    pub fn picked(&mut self, cells: &[u8], tracks: usize, m: usize, way: AnyWay) -> Vec<u8> {
        let heard = heard(cells, tracks);
        let j = self.from(0, heard.len() - m);
        let mut note = |k: &usize| {
            let column = &cells[(k - 1) * tracks..k * tracks];
            let tried = [column[self.from(0, tracks - 1)], column[self.from(0, tracks - 1)]];
            tried[0].min(tried[1]) & 127
        };
        let notes: Vec<u8> = heard[j..j + m].iter().map(&mut note).collect();
        if way == AnyWay::Written && !self.one_in(4) {
            return notes;
        }
        let (low, high) = (*notes.iter().min().unwrap(), *notes.iter().max().unwrap());
        let to = self.from(0, 127 - usize::from(high - low)) as u8;
        notes.into_iter().map(|p| p - low + to).collect()
    }

    /// Another column in the place of one: of rests only, with one pitch, or with any.
    pub fn change(&mut self, call: &mut Call) {
        let (tracks, n) = (call.tracks, call.cells.len() / call.tracks);
        call.changed = if self.one_in(6) { n } else { self.from(1, n) } as u16;
        let mut column = vec![255; tracks];
        match self.from(1, 3) {
            1 => {}
            2 => column[self.from(0, tracks - 1)] = self.from(0, 127) as u8,
            _ => column = self.bytes(tracks, 128, 2),
        }
        call.cells[(usize::from(call.changed) - 1) * tracks..][..tracks].copy_from_slice(&column);
    }

    /// Something wrong, or near to it.
    pub fn damage(&mut self, call: &mut Call) {
        let lent = &mut call.lent;
        match self.from(1, 15) {
            1 => call.tracks = [0, 15, 16, 17, usize::MAX][self.from(0, 4)],
            2 => call.cells.push(60),
            3 => call.cells.clear(),
            4 => {
                let at = self.from(0, call.cells.len().max(1) - 1);
                let cell = [127, 128, 200, 254, 255][self.from(0, 4)];
                call.cells.get_mut(at).map(|c| *c = cell);
            }
            5 => call.theme = vec![60; [0, 1, 2, 32, 33, 40][self.from(0, 5)]],
            6 => {
                let at = self.from(0, call.theme.len().max(1) - 1);
                let note = [127, 128, 255][self.from(0, 2)];
                call.theme.get_mut(at).map(|p| *p = note);
            }
            7 => lent.sets.push(0),
            8 => {
                let at = self.from(0, lent.sets.len().max(1) - 1);
                let set = [4095, 4096, 65535][self.from(0, 2)];
                lent.sets.get_mut(at).map(|s| *s = set);
            }
            9 => lent.table = vec![1; [0, 4095, 4097][self.from(0, 2)]],
            10 => lent.columns = vec![1; [0, 1, 13][self.from(0, 2)]],
            11 => lent.shifts = vec![1; [0, 1, 13][self.from(0, 2)]],
            12 => {
                let right = summary_of(&lent.sets).0;
                let near = [right, right ^ 1 << self.from(0, 11), right | 4096, 4095, 65535, 0];
                call.summary = Summary(near[self.from(0, 5)]);
            }
            13 => lent.route.truncate([0, 1, call.theme.len().max(1) - 1, call.theme.len()][self.from(0, 3)]),
            14 => {
                let n = call.cells.len().checked_div(call.tracks).unwrap_or(0);
                call.changed = [0, 1, n as u16, (n + 1) as u16, 65535][self.from(0, 4)];
            }
            _ => {
                let n = call.cells.len().checked_div(call.tracks).unwrap_or(0);
                call.bookmark.column = [0, 1, (n + 1) as u16, (n + 2) as u16, 65535][self.from(0, 4)];
                call.bookmark.shift = [-32768, -128, -127, -1, 0, 1, 2, 11, 12, 13, 127, 128, 129, 32767][self.from(0, 13)];
            }
        }
    }
}

/// The columns with a pitch, counted from 1.
pub fn heard(cells: &[u8], tracks: usize) -> Vec<usize> {
    let columns = cells.chunks_exact(tracks).enumerate();
    columns.filter(|(_, column)| column.iter().any(|c| *c < 128)).map(|(k, _)| k + 1).collect()
}
