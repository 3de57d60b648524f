//! Whether a theme occurs at all: the summary is asked first, and then the candidates, up to the first that has a pair. No
//! looks are counted.

use super::*;

pub fn occurs(
    cells: &[u8],
    tracks: usize,
    theme: &[u8],
    way: Way,
    sets: &[u16],
    summary: Summary,
    table: &mut [u32],
) -> Result<bool, Refusal> {
    let n = check_score(cells, tracks)?;
    check_theme(theme)?;
    let right = summed_up(sets, n)?;
    let Ok(table) = <&mut [u32; 4096]>::try_from(table) else { return refuse(8, 0) };
    if summary != right {
        return refuse(12, 0);
    }
    fill(theme, table);
    // a summary is as good an index as a set: bits 0 to m - 2 of its word are 0 where it has all intervals of the theme
    if table[usize::from(summary.0)] << (33 - theme.len()) != 0 {
        return Ok(false);
    }
    let asked = Asked { cells, tracks, theme, way, sets, table };
    if all_heard(cells, tracks) {
        Ok(asked.among(&Every(n)))
    } else {
        Ok(asked.among(&listed(cells, tracks, &mut [0; 2048])))
    }
}

/// The summary of sets that are checked on the way.
fn summed_up(sets: &[u16], n: usize) -> Result<Summary, Refusal> {
    if sets.len() != n - 1 {
        return refuse(6, 0);
    }
    let (any, all) = sets.iter().fold((0, 4095), |(any, all), set| (any | set, all & set));
    if any > 4095 {
        return refuse(7, sets.iter().position(|s| *s > 4095).unwrap());
    }
    Ok(Summary(all))
}

struct Asked<'a> {
    cells: &'a [u8],
    tracks: usize,
    theme: &'a [u8],
    way: Way,
    sets: &'a [u16],
    table: &'a [u32; 4096],
}

impl Asked<'_> {
    /// Whether some candidate has a pair. Columns of few tracks are seldom candidates, and are gone through start by start;
    /// others are taken as words, which are kept.
    fn among(&self, heard: &impl Heard) -> bool {
        if self.tracks < 4 {
            return self.any_candidate(heard, |at| self.start_stands(heard, at));
        }
        let mut bits = Bits::new(self.cells, self.tracks, self.theme, self.way);
        self.any_candidate(heard, |at| bits.stands(heard, at))
    }

    #[inline]
    fn any_candidate(&self, heard: &impl Heard, mut stands: impl FnMut(usize) -> bool) -> bool {
        let m = self.theme.len();
        if heard.count() < m {
            return false;
        }
        let mut register = !0u32;
        for set in heard.sets(0..m - 2, self.sets) {
            register = register << 1 | self.table[usize::from(set & 4095)];
        }
        for (at, set) in heard.sets(m - 2..heard.count() - 1, self.sets).enumerate() {
            register = register << 1 | self.table[usize::from(set & 4095)];
            if register >> (m - 2) & 1 == 0 && stands(at) {
                return true;
            }
        }
        false
    }

    /// Whether the theme stands at this place among the columns with a pitch, from one of its pitches on.
    #[inline]
    fn start_stands(&self, heard: &impl Heard, at: usize) -> bool {
        let mut onward = heard.columns(at, self.cells, self.tracks);
        let here = onward.next().unwrap();
        let (first, rest) = (self.theme[0], &self.theme[1..]);
        here.iter().filter(|t| **t < 128).any(|t| {
            let mut notes = rest.iter().zip(onward.clone());
            match self.way {
                // at most 254, which is no rest
                Way::Exact => notes.all(|(p, column)| {
                    let want = i32::from(*p) + i32::from(*t) - i32::from(first);
                    column.iter().any(|u| i32::from(*u) == want)
                }),
                Way::Octave => notes.all(|(p, column)| {
                    let want = CLASS[(usize::from(*p) + usize::from(*t) + 132 - usize::from(first)) % 12];
                    column.iter().any(|u| CLASS[usize::from(*u)] == want)
                }),
            }
        })
    }
}

impl Bits<'_> {
    /// Whether some start at this place is followed to the theme's last note.
    #[inline]
    fn stands(&mut self, heard: &impl Heard, at: usize) -> bool {
        match self.way {
            Way::Exact => {
                let starts = self.word(heard, at);
                self.any_left(heard, at, starts, |word, d| if d >= 0 { word >> d } else { word << -d })
            }
            Way::Octave => {
                let starts = turned(self.word(heard, at) as u16, self.moves[0] as u32);
                self.any_left(heard, at, u128::from(starts), |word, d| u128::from(turned(word as u16, d as u32)))
            }
        }
    }

    #[inline]
    fn any_left(&mut self, heard: &impl Heard, at: usize, starts: u128, moved: impl Fn(u128, i32) -> u128) -> bool {
        let mut left = starts;
        for i in 1..self.m {
            if left == 0 {
                return false;
            }
            left &= moved(self.word(heard, at + i), self.moves[i]);
        }
        left != 0
    }
}
