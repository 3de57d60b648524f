//! Why a pair is listed or not, in types and in plain words.

use crate::{Pair, Way};
use std::fmt;

/// How many numbers the library answers: five, and then a track for each of 64 notes.
pub(crate) const EXPLAIN_LEN: usize = 69;

/// Where the tracks begin among them.
const FIRST_TRACK: usize = 5;

/// That a pair is listed, or the first thing that is wrong with it, in the order of these variants: first the shift, then the
/// column, then the notes one after another. It says so in plain words:
///
/// ```
/// use finder::{Reason, Way};
///
/// assert_eq!(Reason::Listed { tracks: vec![1, 2, 2] }.to_string(), "listed: tracks 1 2 2");
/// let reason = Reason::NoShift { way: Way::Exact, shift: 130 };
/// assert_eq!(reason.to_string(), "shift 130 is none of exact's, which are -127 to 127");
/// assert_eq!(Reason::Absent { note: 3, column: 7 }.to_string(), "note 3 is absent from column 7");
/// ```
#[derive(Clone, PartialEq, Eq, Hash, Debug)]
pub enum Reason {
    /// The pair is listed.
    Listed {
        /// For each note the lowest track, counted from 1, that holds it. [`route`](crate::route) has the fewest changes.
        tracks: Vec<u8>,
    },
    /// The shift is not one of the way. The shift above the highest, which a [`Bookmark`](crate::Bookmark) may have, is not.
    NoShift {
        /// The way that was asked about.
        way: Way,
        /// The shift.
        shift: i16,
    },
    /// The column is 0, and columns are counted from 1.
    NoColumn,
    /// From this column on, fewer columns have a pitch than the theme has notes. A column above the last is such a one.
    TooFew {
        /// The column.
        column: u16,
    },
    /// The column has no pitch.
    Empty {
        /// The column.
        column: u16,
    },
    /// The first note that fails is no pitch any more where it is moved. Only exact has this reason.
    Outside {
        /// The number of the note, from 1.
        note: u8,
    },
    /// The first note that fails, moved, is not in the column in which it is sought: the first in the pair's column, each
    /// further one in the next column with a pitch.
    Absent {
        /// The number of the note, from 1.
        note: u8,
        /// The column in which it is sought.
        column: u16,
    },
}

impl fmt::Display for Reason {
    fn fmt(&self, f: &mut fmt::Formatter<'_>) -> fmt::Result {
        match self {
            Reason::Listed { tracks } => {
                write!(f, "listed: tracks")?;
                tracks.iter().try_for_each(|track| write!(f, " {track}"))
            }
            Reason::NoShift { way, shift } => {
                let shifts = way.shifts();
                write!(f, "shift {shift} is none of {way}'s, which are {} to {}", shifts.start(), shifts.end())
            }
            Reason::NoColumn => write!(f, "column 0 is no column"),
            Reason::TooFew { column } => write!(f, "from column {column} on there are too few columns with a pitch"),
            Reason::Empty { column } => write!(f, "column {column} holds no pitch"),
            Reason::Outside { note } => write!(f, "note {note} falls outside 0 to 127"),
            Reason::Absent { note, column } => write!(f, "note {note} is absent from column {column}"),
        }
    }
}

/// What the lent sets make of a column at which the theme has room, whatever the shift. A quick page goes through the columns
/// that they keep.
///
/// ```
/// use finder::Sifted;
///
/// assert_eq!(Sifted::Kept { column: 5 }.to_string(), "the sets keep column 5");
/// let dismissed = Sifted::Dismissed { column: 5, interval: 2, size: 4 };
/// assert_eq!(dismissed.to_string(), "the sets dismiss column 5 by interval 2, of 4 semitones");
/// ```
#[derive(Clone, Copy, PartialEq, Eq, Hash, Debug)]
pub enum Sifted {
    /// Every interval of the theme is in its set: the column is a candidate.
    Kept {
        /// The column.
        column: u16,
    },
    /// An interval of the theme is not in its set, which is that of the column of the note from which the interval leads.
    Dismissed {
        /// The column.
        column: u16,
        /// The number of the first such interval, from 1, which leads from the first note to the second.
        interval: u8,
        /// Its size, 0 to 11 semitones upwards, octaves ignored.
        size: u8,
    },
}

impl fmt::Display for Sifted {
    fn fmt(&self, f: &mut fmt::Formatter<'_>) -> fmt::Result {
        match self {
            Sifted::Kept { column } => write!(f, "the sets keep column {column}"),
            Sifted::Dismissed { column, interval, size } => {
                let semitones = if *size == 1 { "semitone" } else { "semitones" };
                write!(f, "the sets dismiss column {column} by interval {interval}, of {size} {semitones}")
            }
        }
    }
}

/// Why a pair is listed or not, and what the lent sets make of its column. One line of text, or two.
#[derive(Clone, PartialEq, Eq, Hash, Debug)]
pub struct Explanation {
    /// That the pair is listed, or the first thing that is wrong with it; the sets count for nothing here.
    pub reason: Reason,
    /// What the sets make of the column; nothing where it is 0, leaves too few columns with a pitch, or has none itself.
    pub sifted: Option<Sifted>,
}

impl fmt::Display for Explanation {
    fn fmt(&self, f: &mut fmt::Formatter<'_>) -> fmt::Result {
        write!(f, "{}", self.reason)?;
        self.sifted.iter().try_for_each(|sifted| write!(f, "\n{sifted}"))
    }
}

impl Explanation {
    /// What the library answered about a pair, for a theme of so many notes.
    pub(crate) fn read(
        answer: &[i64; EXPLAIN_LEN],
        cells: &[u8],
        tracks: usize,
        notes: usize,
        way: Way,
        pair: Pair,
    ) -> Explanation {
        let Pair { column, shift } = pair;
        let [number, note, sifted, interval, size] = [0, 1, 2, 3, 4].map(|at| answer[at] as u8);
        let reason = match number {
            0 => Reason::Listed { tracks: answer[FIRST_TRACK..][..notes].iter().map(|track| *track as u8).collect() },
            1 => Reason::NoShift { way, shift },
            2 => Reason::NoColumn,
            3 => Reason::TooFew { column },
            4 => Reason::Empty { column },
            5 => Reason::Outside { note },
            6 => Reason::Absent { note, column: sought_in(cells, tracks, column, note) },
            _ => unreachable!("the library has no reason {number}"),
        };
        let sifted = match sifted {
            0 => None,
            1 => Some(Sifted::Kept { column }),
            2 => Some(Sifted::Dismissed { column, interval, size }),
            _ => unreachable!("the library makes no {sifted} of a column"),
        };
        Explanation { reason, sifted }
    }
}

/// The column in which a note of this number, from 1, is sought, where the first is sought in column `first`.
fn sought_in(cells: &[u8], tracks: usize, first: u16, note: u8) -> u16 {
    let columns = (1..).zip(cells.chunks_exact(tracks)).skip(usize::from(first) - 1);
    let mut heard = columns.filter(|(_, column)| column.iter().any(|cell| *cell < 128));
    heard.nth(usize::from(note) - 1).expect("each note has a column").0
}
