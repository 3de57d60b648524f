//! Why a pair is listed or not, from the definition: one check after another, each with its own look at the score.

use super::Call;
use finder::{AnyWay, Explanation, Pair, Reason, Refusal, Sifted, Way};

impl Call {
    /// The explanation of a pair, exact or octave. Nothing lent is written.
    pub fn explain(&self, pair: Pair) -> Result<Explanation, Refusal> {
        self.check_explanation()?;
        let AnyWay::Moved(way) = self.way else { panic!("the tune in its own key is not explained") };
        let column_fault = self.column_fault(pair.column);
        let (lowest, highest) = self.shifts();
        let reason = if i32::from(pair.shift) < lowest || i32::from(pair.shift) > highest {
            Reason::NoShift { way, shift: pair.shift }
        } else if let Some(fault) = &column_fault {
            fault.clone()
        } else {
            self.notes(pair)
        };
        let sifted = if column_fault.is_some() { None } else { Some(self.sifted(pair.column)) };
        Ok(Explanation { reason, sifted })
    }

    /// What is wrong with a column by itself, if anything is.
    fn column_fault(&self, column: u16) -> Option<Reason> {
        if column == 0 {
            return Some(Reason::NoColumn);
        }
        let j = usize::from(column);
        if self.onward(j).len() < self.theme.len() {
            return Some(Reason::TooFew { column });
        }
        if !self.has_pitch(j) {
            return Some(Reason::Empty { column });
        }
        None
    }

    /// The first note that fails, or the track of each.
    fn notes(&self, pair: Pair) -> Reason {
        let places = self.onward(pair.column.into());
        let mut tracks = Vec::new();
        for (i, k) in places.into_iter().enumerate() {
            let moved = i32::from(self.theme[i]) + i32::from(pair.shift);
            let note = i as u8 + 1;
            if self.way == AnyWay::Moved(Way::Exact) && !(0..=127).contains(&moved) {
                return Reason::Outside { note };
            }
            match (1..=self.tracks).find(|track| self.sounds(k, *track, moved)) {
                Some(track) => tracks.push(track as u8),
                None => return Reason::Absent { note, column: k as u16 },
            }
        }
        Reason::Listed { tracks }
    }

    /// Whether column k has, in this track, a pitch that is taken for this one.
    pub fn sounds(&self, k: usize, track: usize, pitch: i32) -> bool {
        let cell = i32::from(self.cells[(k - 1) * self.tracks + track - 1]);
        let octaves_apart = (cell - pitch) % 12 == 0;
        cell != 255 && (cell == pitch || self.way == AnyWay::Moved(Way::Octave) && octaves_apart)
    }

    /// The first interval that is not in its set, if there is one.
    fn sifted(&self, column: u16) -> Sifted {
        let places = self.onward(column.into());
        for i in 1..self.theme.len() {
            let size = self.interval(i - 1);
            let set = self.lent.sets[places[i - 1] - 1];
            if set & 1 << size != 0 {
                return Sifted::Dismissed { column, interval: i as u8, size: size as u8 };
            }
        }
        Sifted::Kept { column }
    }
}
