//! Where does a tune stand in a score?
//!
//! Safe functions over the proved finder's C interface (`include/finder.h`). A score is cells, column after column,
//! `tracks` cells a column: 0 to 127 is a MIDI pitch, 255 a rest. A theme is 2 to 32 pitches. A [`Pair`] says that the
//! theme stands at that column (from 1) with that shift: the columns with a pitch from that one on, itself the first, hold
//! the notes one after another, each in any track. Columns of rests only are passed over.
//!
//! [`pairs`] is an iterator over all of them:
//!
//! ```
//! use finder::{pairs, Pair, Way};
//!
//! // five columns of two tracks; 255 is a rest
//! let score = [60, 67, 62, 69, 64, 255, 65, 72, 255, 67];
//! let found: Vec<Pair> = pairs(&score, 2, &[67, 62], Way::Exact)?.collect();
//! assert_eq!(found, [Pair { column: 1, shift: 0 }, Pair { column: 2, shift: 2 }, Pair { column: 4, shift: 5 }]);
//! # Ok::<(), finder::Refusal>(())
//! ```
//!
//! [`plain_pairs`] needs no preparation, and also lists a tune in its own key alone:
//!
//! ```
//! use finder::{plain_pairs, AnyWay, Pair};
//!
//! let score = [60, 67, 62, 69, 64, 255, 65, 72, 255, 67];
//! let found: Vec<Pair> = plain_pairs(&score, 2, &[67, 62], AnyWay::Written)?.collect();
//! assert_eq!(found, [Pair { column: 1, shift: 0 }]);
//! # Ok::<(), finder::Refusal>(())
//! ```
//!
//! A tune goes on behind a column of rests, and columns keep their numbers in the score:
//!
//! ```
//! use finder::{pairs, Pair, Way};
//!
//! let score = [255, 60, 255, 255, 62, 64];
//! let found: Vec<Pair> = pairs(&score, 1, &[60, 62, 64], Way::Exact)?.collect();
//! assert_eq!(found, [Pair { column: 2, shift: 0 }]);
//! # Ok::<(), finder::Refusal>(())
//! ```
//!
//! A search box asks at each keystroke whether the theme occurs at all. [`Prepared`] keeps what the question needs, and is
//! brought up to date where one column of the score is changed:
//!
//! ```
//! use finder::{Prepared, Way};
//!
//! let mut score = [60, 67, 62, 69, 64, 255, 65, 72, 255, 67];
//! let mut prepared = Prepared::new(&score, 2)?;
//! assert!(prepared.occurs(&score, 2, &[67, 62], Way::Exact)?);
//! assert!(!prepared.occurs(&score, 2, &[69, 63], Way::Exact)?);
//!
//! // column 3 has another pitch now
//! score[4] = 63;
//! prepared.update(&score, 2, 3)?;
//! assert_eq!(prepared, Prepared::new(&score, 2)?);
//! assert!(prepared.occurs(&score, 2, &[69, 63], Way::Exact)?);
//! # Ok::<(), finder::Refusal>(())
//! ```
//!
//! An editor who misses a place, or wonders at one, asks why. The answer is text, or values:
//!
//! ```
//! use finder::{Pair, Prepared, Reason, Way};
//!
//! let score = [60, 67, 62, 69, 64, 255, 65, 72, 255, 67];
//! let prepared = Prepared::new(&score, 2)?;
//! let why = |column, shift| prepared.explain(&score, 2, &[67, 62], Way::Exact, Pair { column, shift });
//! assert_eq!(why(2, 2)?.to_string(), "listed: tracks 2 1\nthe sets keep column 2");
//! let missing = why(3, -3)?;
//! assert_eq!(missing.reason.to_string(), "note 2 is absent from column 4");
//! assert_eq!(missing.sifted.unwrap().to_string(), "the sets dismiss column 3 by interval 1, of 7 semitones");
//! assert_eq!(why(5, 0)?.reason, Reason::TooFew { column: 5 });
//! # Ok::<(), finder::Refusal>(())
//! ```
//!
//! Who plays a tune that wanders through the instruments? [`route`] names a track for each note, with the fewest changes:
//!
//! ```
//! use finder::{route, AnyWay, Pair};
//!
//! // violin, viola, cello; the tune begins in the first, goes on in the second and ends in the third
//! let score = [59, 55, 255, 62, 255, 50, 255, 64, 48, 65, 255, 66, 72, 60, 255];
//! let played = route(&score, 3, &[62, 64, 66], AnyWay::Written, Pair { column: 2, shift: 0 })?;
//! assert_eq!((&played.tracks[..], played.changes), (&[1, 2, 3][..], 2));
//! # Ok::<(), finder::Refusal>(())
//! ```
//!
//! [`prepare`], [`update`], [`occurs`], [`explain`], [`route_into`], [`plain_page`] and [`quick_page`] are the calls
//! themselves, for buffers of one's own. What is proved is the library behind them; this crate passes slices on. Two things
//! it computes: [`Summary::of`], and the column of [`Reason::Absent`]. It is tested and not proved.
#![warn(missing_docs)]

mod explanation;
mod route;

use explanation::EXPLAIN_LEN;
pub use explanation::{Explanation, Reason, Sifted};
pub use route::{route, route_into, Route};
use std::fmt;
use std::iter::FusedIterator;
use std::ops::RangeInclusive;

/// How many places a theme table has.
pub const TABLE_LEN: usize = 4096;

/// The most columns that a score may have.
pub const MOST_COLUMNS: usize = 2048;

/// The most notes that a theme may have.
pub const MOST_NOTES: usize = 32;

/// When a column holds a note moved by a shift. Both searches, the question, the explainer and the router take these two ways.
#[derive(Clone, Copy, PartialEq, Eq, Hash, Debug)]
pub enum Way {
    /// The note moved by the shift, -127 to 127, is in the column.
    Exact,
    /// The same with octaves ignored; the shift is 0 to 11.
    Octave,
}

impl Way {
    /// The shifts that a pair may have.
    pub fn shifts(self) -> RangeInclusive<i16> {
        match self {
            Way::Exact => -127..=127,
            Way::Octave => 0..=11,
        }
    }

    /// Where a list begins: column 1, and the lowest shift.
    pub fn first(self) -> Bookmark {
        Bookmark { column: 1, shift: *self.shifts().start() }
    }

    fn number(self) -> u8 {
        match self {
            Way::Exact => 0,
            Way::Octave => 1,
        }
    }
}

impl fmt::Display for Way {
    fn fmt(&self, f: &mut fmt::Formatter<'_>) -> fmt::Result {
        f.write_str(match self {
            Way::Exact => "exact",
            Way::Octave => "octave",
        })
    }
}

/// Any of the three ways. The plain search and the router take them all. There is no quick search for the tune as it is
/// written, and so [`pairs`], [`quick_page`], [`occurs`] and [`explain`] cannot be handed it:
///
/// ```compile_fail
/// finder::pairs(&[60, 62], 1, &[60, 62], finder::AnyWay::Written);
/// ```
#[derive(Clone, Copy, PartialEq, Eq, Hash, Debug)]
pub enum AnyWay {
    /// The tune in any key.
    Moved(Way),
    /// The tune in its own key: the exact pairs with shift 0. It takes no looks.
    Written,
}

impl AnyWay {
    /// Where a list begins: column 1, and the lowest shift.
    pub fn first(self) -> Bookmark {
        match self {
            AnyWay::Moved(way) => way.first(),
            AnyWay::Written => Bookmark { column: 1, shift: 0 },
        }
    }

    fn number(self) -> u8 {
        match self {
            AnyWay::Moved(way) => way.number(),
            AnyWay::Written => 2,
        }
    }
}

impl From<Way> for AnyWay {
    fn from(way: Way) -> AnyWay {
        AnyWay::Moved(way)
    }
}

/// The theme stands at this column, counted from 1, with this shift: score minus theme. [`explain`] takes any column and any
/// shift, and says whether that is so; [`route`] refuses 13 where it is not.
#[derive(Clone, Copy, PartialEq, Eq, PartialOrd, Ord, Hash, Debug)]
pub struct Pair {
    /// The column of the theme's first note.
    pub column: u16,
    /// What is added to each note.
    pub shift: i16,
}

/// The first pair to consider.
#[derive(Clone, Copy, PartialEq, Eq, PartialOrd, Ord, Hash, Debug)]
pub struct Bookmark {
    /// A column, or the one after the last. It need not have a pitch: the pairs of the next one that has are then all
    /// considered, whatever the shift.
    pub column: u16,
    /// A shift of the way, or one above the highest.
    pub shift: i16,
}

/// What a page call says of the pairs that it wrote.
#[derive(Clone, Copy, PartialEq, Eq, Hash, Debug)]
pub struct Page {
    /// How many pairs were written, from the front of the buffers; places behind them keep their contents.
    pub written: usize,
    /// Where the next page goes on.
    pub next: Bookmark,
    /// Whether the list is finished. A page that is full never is: the next one may be empty.
    pub finished: bool,
    /// How many notes after a theme's first were looked for; 0 for [`AnyWay::Written`].
    pub looks: u32,
}

/// Which intervals some interval sets have, as one number of 12 bits: bit d, for d from 0 to 11, is 0 exactly where some set
/// has bit d at 0. With no sets it is 4095. A theme with an interval that the summary lacks does not occur.
///
/// [`prepare`] and [`update`] give the summary of the sets that they leave. It is a type of its own, so that no set is taken
/// for it:
///
/// ```compile_fail
/// # let (score, sets, mut table) = ([60, 62], [4091], [0; finder::TABLE_LEN]);
/// finder::occurs(&score, 1, &[60, 62], finder::Way::Exact, &sets, sets[0], &mut table);
/// ```
#[derive(Clone, Copy, PartialEq, Eq, Hash, Debug)]
pub struct Summary(pub u16);

impl Summary {
    /// The summary of sets of one's own, which [`occurs`] wants beside them:
    ///
    /// ```
    /// use finder::{occurs, Summary, Way, TABLE_LEN};
    ///
    /// // 3451 has the intervals 2, 7 and 9, and 3837 has 1 and 8
    /// assert_eq!(Summary::of(&[3451, 3837]), Summary(3193));
    /// assert_eq!(Summary::of(&[]), Summary(4095));
    ///
    /// // by these sets only column 1 comes into question
    /// let (score, sets) = ([60, 62, 65], [4091, 4095]);
    /// let ask = |theme: &[u8]| occurs(&score, 1, theme, Way::Exact, &sets, Summary::of(&sets), &mut [0; TABLE_LEN]);
    /// assert_eq!(ask(&[60, 62]), Ok(true));
    /// assert_eq!(ask(&[62, 65]), Ok(false));
    /// ```
    pub fn of(sets: &[u16]) -> Summary {
        Summary(sets.iter().fold(4095, |all, set| all & set))
    }
}

/// Why a call was turned away. Nothing lent was written.
#[derive(Clone, Copy, PartialEq, Eq, Hash, Debug)]
pub struct Refusal {
    /// 1 to 10, 12, 13, 14 or 19: the lowest that applies.
    pub number: u8,
    /// The first bad cell, note or set, from 0; 0 where no place is named.
    pub place: usize,
}

impl Refusal {
    fn read(result: i64) -> Result<(), Refusal> {
        match result {
            0 => Ok(()),
            r => Err(Refusal { number: (r % 256) as u8, place: (r / 256) as usize }),
        }
    }
}

impl fmt::Display for Refusal {
    fn fmt(&self, f: &mut fmt::Formatter<'_>) -> fmt::Result {
        let place = self.place;
        match self.number {
            1 => write!(f, "1: there must be 1 to 16 tracks"),
            2 => write!(f, "2: the cells must make 1 to 2048 whole columns"),
            3 => write!(f, "3: cell {place} is neither a pitch nor a rest"),
            4 => write!(f, "4: a theme must have 2 to 32 notes"),
            5 => write!(f, "5: note {place} of the theme is no pitch"),
            6 => write!(f, "6: there must be one set less than columns"),
            7 => write!(f, "7: set {place} is over 4095"),
            8 => write!(f, "8: a theme table must have 4096 places"),
            9 => write!(f, "9: the two buffers must be equally long and not empty"),
            10 => write!(f, "10: the bookmark is out of range"),
            12 => write!(f, "12: the summary is not that of the sets"),
            13 => write!(f, "13: the pair is not listed"),
            14 => write!(f, "14: the route must have a place for each note"),
            19 => write!(f, "19: the score has no such column"),
            n => write!(f, "{n}: refused at {place}"),
        }
    }
}

impl std::error::Error for Refusal {}

extern "C" {
    fn finder_prepare(
        cells: *const u8, cells_len: usize, tracks: usize, sets: *mut u16, sets_len: usize, answer: *mut i64, answer_len: usize,
    ) -> i64;
    fn finder_update(
        cells: *const u8, cells_len: usize, tracks: usize, column: u16, sets: *mut u16, sets_len: usize,
        answer: *mut i64, answer_len: usize,
    ) -> i64;
    fn finder_occurs(
        cells: *const u8, cells_len: usize, tracks: usize, theme: *const u8, theme_len: usize, way: u8,
        sets: *const u16, sets_len: usize, summary: u16, table: *mut u32, table_len: usize, answer: *mut i64, answer_len: usize,
    ) -> i64;
    fn finder_plain_page(
        cells: *const u8, cells_len: usize, tracks: usize, theme: *const u8, theme_len: usize, way: u8, column: u16, shift: i16,
        columns: *mut u16, columns_len: usize, shifts: *mut i16, shifts_len: usize, answer: *mut i64, answer_len: usize,
    ) -> i64;
    fn finder_quick_page(
        cells: *const u8, cells_len: usize, tracks: usize, theme: *const u8, theme_len: usize, way: u8, column: u16, shift: i16,
        sets: *const u16, sets_len: usize, table: *mut u32, table_len: usize,
        columns: *mut u16, columns_len: usize, shifts: *mut i16, shifts_len: usize, answer: *mut i64, answer_len: usize,
    ) -> i64;
    fn finder_explain(
        cells: *const u8, cells_len: usize, tracks: usize, theme: *const u8, theme_len: usize, way: u8, column: u16, shift: i16,
        sets: *const u16, sets_len: usize, answer: *mut i64, answer_len: usize,
    ) -> i64;
    fn finder_route(
        cells: *const u8, cells_len: usize, tracks: usize, theme: *const u8, theme_len: usize, way: u8, column: u16, shift: i16,
        route: *mut u8, route_len: usize, answer: *mut i64, answer_len: usize,
    ) -> i64;
}

/// Fills all interval sets of the score, one less than it has columns, and gives their summary.
///
/// Bit d of a column's set is 0 where a pitch of the next column with a pitch lies d semitones above one of its own, octaves
/// ignored. The set is 4095 where the column has no pitch, and where no column with one follows. Refuses 1, 2, 3 and 6.
///
/// ```
/// use finder::{prepare, Summary};
///
/// let mut sets = [0; 4];
/// let summary = prepare(&[60, 67, 62, 69, 64, 255, 65, 72, 255, 67], 2, &mut sets)?;
/// // the intervals 2, 7 and 9; 2 and 7; 1 and 8; 2 and 7
/// assert_eq!(sets, [3451, 3963, 3837, 3963]);
/// assert_eq!(summary, Summary(3193));
/// # Ok::<(), finder::Refusal>(())
/// ```
pub fn prepare(cells: &[u8], tracks: usize, sets: &mut [u16]) -> Result<Summary, Refusal> {
    let mut answer = [0; 1];
    // Safety: each pointer and length is of a slice, and those that are written are lent to this call alone.
    Refusal::read(unsafe {
        finder_prepare(
            cells.as_ptr(), cells.len(), tracks, sets.as_mut_ptr(), sets.len(), answer.as_mut_ptr(), answer.len(),
        )
    })?;
    Ok(Summary(answer[0] as u16))
}

/// Brings the sets up to date after one column, counted from 1, was changed, and gives their summary.
///
/// The cells are the score after the change, and the sets those that were right before. The set of that column (the last
/// column has none) and the set of the nearest earlier column with a pitch, if there is one, are made anew; all other sets
/// stay, wrong ones too, and the summary is of the sets as they then are. From sets that were right before, both are what
/// [`prepare`] gives. Refuses 1, 2, 3, 6, 7 and 19.
///
/// ```
/// use finder::{prepare, update, Summary};
///
/// let mut sets = [0; 2];
/// prepare(&[60, 62, 65], 1, &mut sets)?;
/// assert_eq!(sets, [4091, 4087]);
/// // the pitch of column 2 is taken out: column 1 goes on to column 3, five semitones higher
/// assert_eq!(update(&[60, 255, 65], 1, 2, &mut sets)?, Summary(4063));
/// assert_eq!(sets, [4063, 4095]);
/// # Ok::<(), finder::Refusal>(())
/// ```
pub fn update(cells: &[u8], tracks: usize, column: u16, sets: &mut [u16]) -> Result<Summary, Refusal> {
    let mut answer = [0; 1];
    // Safety: each pointer and length is of a slice, and those that are written are lent to this call alone.
    Refusal::read(unsafe {
        finder_update(
            cells.as_ptr(), cells.len(), tracks, column, sets.as_mut_ptr(), sets.len(), answer.as_mut_ptr(), answer.len(),
        )
    })?;
    Ok(Summary(answer[0] as u16))
}

/// Whether the theme occurs at all, exact or octave: whether the list of [`quick_page`] with these sets has a pair. With the
/// score's own sets that is the full list.
///
/// The summary is that of the sets; [`Prepared`] keeps both together, and [`Summary::of`] is for sets of one's own. Where the
/// theme has an interval that the summary lacks, the answer is no without a search. The theme's table is left in `table`, also
/// where the answer is no. With sets that are no longer the score's own, the answer may be no where the theme stands: update them
/// first. A theme of one note, as someone begins to type, is refused 4: there is nothing to find yet. Refuses 1 to 8, and 12.
///
/// ```
/// use finder::{occurs, prepare, Refusal, Summary, Way, TABLE_LEN};
///
/// let (score, mut sets, mut table) = ([60, 62, 65], [0; 2], vec![0; TABLE_LEN]);
/// let summary = prepare(&score, 1, &mut sets)?;
/// assert!(occurs(&score, 1, &[50, 52], Way::Exact, &sets, summary, &mut table)?);
/// assert!(!occurs(&score, 1, &[50, 54], Way::Exact, &sets, summary, &mut table)?);
/// let wrong = occurs(&score, 1, &[50, 52], Way::Exact, &sets, Summary(4095), &mut table);
/// assert_eq!(wrong, Err(Refusal { number: 12, place: 0 }));
/// # Ok::<(), Refusal>(())
/// ```
pub fn occurs(
    cells: &[u8],
    tracks: usize,
    theme: &[u8],
    way: Way,
    sets: &[u16],
    summary: Summary,
    table: &mut [u32],
) -> Result<bool, Refusal> {
    let mut answer = [0; 1];
    // Safety: each pointer and length is of a slice, and those that are written are lent to this call alone.
    Refusal::read(unsafe {
        finder_occurs(
            cells.as_ptr(), cells.len(), tracks, theme.as_ptr(), theme.len(), way.number(), sets.as_ptr(), sets.len(), summary.0,
            table.as_mut_ptr(), table.len(), answer.as_mut_ptr(), answer.len(),
        )
    })?;
    Ok(answer[0] != 0)
}

/// Why the theme is listed at this column with this shift, or is not, exact or octave; and what the sets make of the column.
///
/// With the score's own sets a listed pair's column is always kept. Sets of another score may dismiss it, or keep a column where
/// nothing is listed: a [`quick_page`] with the same sets has the pair exactly where it is listed and its column is kept.
/// Refuses 1 to 7.
///
/// ```
/// use finder::{explain, Pair, Reason, Sifted, Way};
///
/// // columns 2 and 4 have no pitch
/// let score = [60, 255, 62, 255, 64];
/// let why = |column, shift, sets: &[u16]| explain(&score, 1, &[60, 62], Way::Exact, Pair { column, shift }, sets);
/// let own = [4091, 4095, 4091, 4095];
/// assert_eq!(why(1, 0, &own)?.reason, Reason::Listed { tracks: vec![1, 1] });
/// assert_eq!(why(1, 1, &own)?.reason, Reason::Absent { note: 1, column: 1 });
/// assert_eq!(why(2, 0, &own)?.reason, Reason::Empty { column: 2 });
/// assert_eq!(why(4, 0, &own)?.reason, Reason::TooFew { column: 4 });
///
/// // sets of another score, in which the interval of two semitones is not there
/// let other = why(1, 0, &[4095; 4])?;
/// assert_eq!(other.reason, Reason::Listed { tracks: vec![1, 1] });
/// assert_eq!(other.sifted, Some(Sifted::Dismissed { column: 1, interval: 1, size: 2 }));
/// # Ok::<(), finder::Refusal>(())
/// ```
pub fn explain(
    cells: &[u8],
    tracks: usize,
    theme: &[u8],
    way: Way,
    pair: Pair,
    sets: &[u16],
) -> Result<Explanation, Refusal> {
    let mut answer = [0; EXPLAIN_LEN];
    // Safety: each pointer and length is of a slice, and those that are written are lent to this call alone.
    Refusal::read(unsafe {
        finder_explain(
            cells.as_ptr(), cells.len(), tracks, theme.as_ptr(), theme.len(), way.number(), pair.column, pair.shift,
            sets.as_ptr(), sets.len(), answer.as_mut_ptr(), answer.len(),
        )
    })?;
    Ok(Explanation::read(&answer, cells, tracks, theme.len(), way, pair))
}

/// Writes the first pairs at or after the bookmark, as many as there is room for; every column with a pitch is looked at.
/// The way is any of the three, a [`Way`] or an [`AnyWay`].
///
/// Refuses 1 to 5, 9 and 10.
pub fn plain_page(
    cells: &[u8],
    tracks: usize,
    theme: &[u8],
    way: impl Into<AnyWay>,
    bookmark: Bookmark,
    columns: &mut [u16],
    shifts: &mut [i16],
) -> Result<Page, Refusal> {
    let way = way.into().number();
    let mut answer = [0; 5];
    // Safety: each pointer and length is of a slice, and those that are written are lent to this call alone.
    Refusal::read(unsafe {
        finder_plain_page(
            cells.as_ptr(), cells.len(), tracks, theme.as_ptr(), theme.len(), way, bookmark.column, bookmark.shift,
            columns.as_mut_ptr(), columns.len(), shifts.as_mut_ptr(), shifts.len(), answer.as_mut_ptr(), answer.len(),
        )
    })?;
    Ok(page(answer))
}

/// The same, exact or octave, with the score's prepared sets, and with no more looks. The theme's table is left in `table`.
///
/// With sets of another score the pairs are those at the columns that the sets make candidates. What the sets of columns
/// without a pitch hold does not matter. Refuses 1 to 10.
#[allow(clippy::too_many_arguments)]
pub fn quick_page(
    cells: &[u8],
    tracks: usize,
    theme: &[u8],
    way: Way,
    bookmark: Bookmark,
    sets: &[u16],
    table: &mut [u32],
    columns: &mut [u16],
    shifts: &mut [i16],
) -> Result<Page, Refusal> {
    let mut answer = [0; 5];
    // Safety: each pointer and length is of a slice, and those that are written are lent to this call alone.
    Refusal::read(unsafe {
        finder_quick_page(
            cells.as_ptr(), cells.len(), tracks, theme.as_ptr(), theme.len(), way.number(), bookmark.column, bookmark.shift,
            sets.as_ptr(), sets.len(), table.as_mut_ptr(), table.len(),
            columns.as_mut_ptr(), columns.len(), shifts.as_mut_ptr(), shifts.len(), answer.as_mut_ptr(), answer.len(),
        )
    })?;
    Ok(page(answer))
}

fn page(answer: [i64; 5]) -> Page {
    Page {
        written: answer[0] as usize,
        next: Bookmark { column: answer[1] as u16, shift: answer[2] as i16 },
        finished: answer[3] != 0,
        looks: answer[4] as u32,
    }
}

/// A score's interval sets and their summary, kept together, so that no question is asked with another summary.
///
/// The score itself stays with the caller and is lent again to each call. Whoever changes a column of it calls
/// [`Prepared::update`] before the next question, and once for each column that is changed.
#[derive(Clone, PartialEq, Eq, Hash, Debug)]
pub struct Prepared {
    sets: Vec<u16>,
    summary: Summary,
}

impl Prepared {
    /// Prepares a score. Refuses 1, 2 and 3.
    pub fn new(cells: &[u8], tracks: usize) -> Result<Prepared, Refusal> {
        // A score of more columns is refused before its sets are looked at.
        let columns = cells.len().checked_div(tracks).unwrap_or(0).min(MOST_COLUMNS);
        let mut sets = vec![0; columns.saturating_sub(1)];
        let summary = prepare(cells, tracks, &mut sets)?;
        Ok(Prepared { sets, summary })
    }

    /// The interval sets, for [`quick_page`] too.
    pub fn sets(&self) -> &[u16] {
        &self.sets
    }

    /// Their summary.
    pub fn summary(&self) -> Summary {
        self.summary
    }

    /// Whether the theme occurs in the score, as by [`occurs`]. Refuses 1 to 5, and 6 for a score of another length.
    pub fn occurs(&self, cells: &[u8], tracks: usize, theme: &[u8], way: Way) -> Result<bool, Refusal> {
        occurs(cells, tracks, theme, way, &self.sets, self.summary, &mut [0; TABLE_LEN])
    }

    /// Why the pair is listed or not, as [`explain`] by these sets. Refuses 1 to 5, and 6 for a score of another length.
    pub fn explain(
        &self,
        cells: &[u8],
        tracks: usize,
        theme: &[u8],
        way: Way,
        pair: Pair,
    ) -> Result<Explanation, Refusal> {
        explain(cells, tracks, theme, way, pair, &self.sets)
    }

    /// Takes the score after one of its columns, counted from 1, was changed, and brings sets and summary up to date, as
    /// [`update`]. Where it is refused nothing changes. Refuses 1, 2, 3, 6 for a score of another length, and 19.
    pub fn update(&mut self, cells: &[u8], tracks: usize, column: u16) -> Result<(), Refusal> {
        self.summary = update(cells, tracks, column, &mut self.sets)?;
        Ok(())
    }
}

/// How many pairs an iterator asks for at a time.
const ROOM: usize = 64;

/// A search with all that its pages are asked with, but for the bookmark and the buffers.
trait Search {
    fn page(&mut self, at: Bookmark, columns: &mut [u16], shifts: &mut [i16]) -> Result<Page, Refusal>;
}

/// The pages of a search, each given out pair by pair.
struct Reading<S> {
    search: S,
    columns: [u16; ROOM],
    shifts: [i16; ROOM],
    page: Page,
    given: usize,
    looks: u64,
}

impl<S: Search> Reading<S> {
    /// Turns the first page.
    fn new(search: S, first: Bookmark) -> Result<Reading<S>, Refusal> {
        let page = Page { written: 0, next: first, finished: false, looks: 0 };
        let mut reading = Reading { search, columns: [0; ROOM], shifts: [0; ROOM], page, given: 0, looks: 0 };
        reading.turn()?;
        Ok(reading)
    }

    fn turn(&mut self) -> Result<(), Refusal> {
        self.page = self.search.page(self.page.next, &mut self.columns, &mut self.shifts)?;
        self.given = 0;
        self.looks += u64::from(self.page.looks);
        Ok(())
    }

    fn next(&mut self) -> Option<Pair> {
        if self.given == self.page.written {
            if self.page.finished {
                return None;
            }
            self.turn().expect("a page's next bookmark is in range");
            if self.page.written == 0 {
                return None;
            }
        }
        let at = self.given;
        self.given += 1;
        Some(Pair { column: self.columns[at], shift: self.shifts[at] })
    }
}

struct Quick<'a> {
    cells: &'a [u8],
    tracks: usize,
    theme: &'a [u8],
    way: Way,
    prepared: Prepared,
    table: Vec<u32>,
}

impl Search for Quick<'_> {
    fn page(&mut self, at: Bookmark, columns: &mut [u16], shifts: &mut [i16]) -> Result<Page, Refusal> {
        let sets = self.prepared.sets();
        quick_page(self.cells, self.tracks, self.theme, self.way, at, sets, &mut self.table, columns, shifts)
    }
}

struct Plain<'a> {
    cells: &'a [u8],
    tracks: usize,
    theme: &'a [u8],
    way: AnyWay,
}

impl Search for Plain<'_> {
    fn page(&mut self, at: Bookmark, columns: &mut [u16], shifts: &mut [i16]) -> Result<Page, Refusal> {
        plain_page(self.cells, self.tracks, self.theme, self.way, at, columns, shifts)
    }
}

/// An iterator over all pairs of a theme in a score, by rising column and then by rising shift.
///
/// It searches the quick way, a page at a time, as it is asked on.
pub struct Pairs<'a>(Reading<Quick<'a>>);

/// All pairs of a theme in a score, exact or octave. Prepares the score's sets, and turns the first page.
///
/// Refuses 1 to 5.
pub fn pairs<'a>(cells: &'a [u8], tracks: usize, theme: &'a [u8], way: Way) -> Result<Pairs<'a>, Refusal> {
    let quick = Quick { cells, tracks, theme, way, prepared: Prepared::new(cells, tracks)?, table: vec![0; TABLE_LEN] };
    Ok(Pairs(Reading::new(quick, way.first())?))
}

impl Pairs<'_> {
    /// The looks of the pages turned so far; after the last pair, of the whole list.
    pub fn looks(&self) -> u64 {
        self.0.looks
    }

    /// The score's interval sets.
    pub fn sets(&self) -> &[u16] {
        self.0.search.prepared.sets()
    }
}

impl Iterator for Pairs<'_> {
    type Item = Pair;

    fn next(&mut self) -> Option<Pair> {
        self.0.next()
    }
}

impl FusedIterator for Pairs<'_> {}

/// An iterator over all pairs of a theme in a score in any of the three ways, in the same order.
///
/// It searches the plain way, a page at a time, as it is asked on.
pub struct PlainPairs<'a>(Reading<Plain<'a>>);

/// All pairs of a theme in a score in any way, a [`Way`] or an [`AnyWay`]. Prepares nothing, and turns the first page.
///
/// Refuses 1 to 5.
pub fn plain_pairs<'a>(
    cells: &'a [u8],
    tracks: usize,
    theme: &'a [u8],
    way: impl Into<AnyWay>,
) -> Result<PlainPairs<'a>, Refusal> {
    let way = way.into();
    Ok(PlainPairs(Reading::new(Plain { cells, tracks, theme, way }, way.first())?))
}

impl PlainPairs<'_> {
    /// The looks of the pages turned so far; after the last pair, of the whole list.
    pub fn looks(&self) -> u64 {
        self.0.looks
    }
}

impl Iterator for PlainPairs<'_> {
    type Item = Pair;

    fn next(&mut self) -> Option<Pair> {
        self.0.next()
    }
}

impl FusedIterator for PlainPairs<'_> {}
