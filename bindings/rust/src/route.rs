//! Who plays a listed pair: a track for each note, with the fewest changes of track.

use crate::{finder_route, AnyWay, Pair, Refusal, MOST_NOTES};
use std::fmt;

/// A track for each note of a theme, in which the note stands. It says so in plain words:
///
/// ```
/// use finder::Route;
///
/// assert_eq!(Route { tracks: vec![3, 1, 1], changes: 1 }.to_string(), "tracks 3 1 1, 1 change");
/// assert_eq!(Route { tracks: vec![2, 2], changes: 0 }.to_string(), "tracks 2 2, 0 changes");
/// ```
#[derive(Clone, PartialEq, Eq, Hash, Debug)]
pub struct Route {
    /// The track of each note, counted from 1.
    pub tracks: Vec<u8>,
    /// How many neighbouring notes are in different tracks.
    pub changes: u8,
}

impl fmt::Display for Route {
    fn fmt(&self, f: &mut fmt::Formatter<'_>) -> fmt::Result {
        write!(f, "tracks")?;
        self.tracks.iter().try_for_each(|track| write!(f, " {track}"))?;
        write!(f, ", {} {}", self.changes, if self.changes == 1 { "change" } else { "changes" })
    }
}

/// Who plays the theme at a listed pair of any way, a [`Way`](crate::Way) or an [`AnyWay`]: the route with the fewest changes
/// of track, and among those the one whose track numbers come first, compared from the first note.
///
/// A note's track is one whose own cell holds the note moved by the shift, in octave any cell of its class. The first note
/// stands in the pair's column, each further one in the next column with a pitch. Refuses 1 to 5, and 13 for a pair that is
/// not listed; [`explain`](crate::explain) says why it is not.
///
/// ```
/// use finder::{route, Pair, Refusal, Way};
///
/// // three tracks: 60 in the third, 62 in the first and the third, a column of rests, 64 in the first
/// let score = [255, 50, 60, 62, 50, 62, 255, 255, 255, 64, 50, 255];
/// let at = |column, shift| route(&score, 3, &[60, 62, 64], Way::Exact, Pair { column, shift });
/// assert_eq!(at(1, 0)?.to_string(), "tracks 3 1 1, 1 change");
/// assert_eq!(at(1, 1), Err(Refusal { number: 13, place: 0 }));
/// # Ok::<(), Refusal>(())
/// ```
pub fn route(cells: &[u8], tracks: usize, theme: &[u8], way: impl Into<AnyWay>, pair: Pair) -> Result<Route, Refusal> {
    // A theme of more notes is refused before the buffer is looked at.
    let mut buffer = [0; MOST_NOTES];
    let changes = route_into(cells, tracks, theme, way, pair, &mut buffer)?;
    Ok(Route { tracks: buffer[..theme.len()].to_vec(), changes })
}

/// Writes the same route into the first places of a buffer, one for each note, and gives its number of changes. Places behind
/// them keep their contents. Refuses 1 to 5, 13, and then 14 for a buffer that is shorter than the theme.
///
/// ```
/// use finder::{route_into, AnyWay, Pair, Refusal};
///
/// let (score, pair) = ([60, 255, 255, 62], Pair { column: 1, shift: 0 });
/// let mut tracks = [9; 3];
/// assert_eq!(route_into(&score, 2, &[60, 62], AnyWay::Written, pair, &mut tracks)?, 1);
/// assert_eq!(tracks, [1, 2, 9]);
/// let short = route_into(&score, 2, &[60, 62], AnyWay::Written, pair, &mut tracks[..1]);
/// assert_eq!(short, Err(Refusal { number: 14, place: 0 }));
/// # Ok::<(), Refusal>(())
/// ```
pub fn route_into(
    cells: &[u8],
    tracks: usize,
    theme: &[u8],
    way: impl Into<AnyWay>,
    pair: Pair,
    route: &mut [u8],
) -> Result<u8, Refusal> {
    let way = way.into().number();
    let mut answer = [0; 1];
    // Safety: each pointer and length is of a slice, and those that are written are lent to this call alone.
    Refusal::read(unsafe {
        finder_route(
            cells.as_ptr(), cells.len(), tracks, theme.as_ptr(), theme.len(), way, pair.column, pair.shift,
            route.as_mut_ptr(), route.len(), answer.as_mut_ptr(), answer.len(),
        )
    })?;
    Ok(answer[0] as u8)
}
