//! The route of a listed pair. Eight cells of several tracks go together as the bytes of a word, which gives the tracks that
//! hold a note as bits. From the last note back the theme is cut into stretches, each as long as some one track can play it:
//! there is a change for each stretch but one. The tracks are then written stretch by stretch.

use super::*;
use finder::Pair;

/// The most notes.
const NOTES: usize = 32;

/// Seven bits of each byte, and one.
const SEVEN_BITS: u64 = 0x7f7f_7f7f_7f7f_7f7f;
const ONES: u64 = 0x0101_0101_0101_0101;

pub fn route(
    cells: &[u8],
    tracks: usize,
    theme: &[u8],
    way: AnyWay,
    pair: Pair,
    route: &mut [u8],
) -> Result<u8, Refusal> {
    let n = check_score(cells, tracks)?;
    check_theme(theme)?;
    let (at, shift) = (usize::from(pair.column), i32::from(pair.shift));
    // all numbers but these are the shift of no pair
    let moved = match way {
        AnyWay::Moved(Way::Exact) => (-127..=127).contains(&shift),
        AnyWay::Moved(Way::Octave) => (0..=11).contains(&shift),
        AnyWay::Written => shift == 0,
    };
    if !moved || !(1..=n).contains(&at) {
        return refuse(13, 0);
    }
    let onward = &cells[(at - 1) * tracks..];
    let mut sets = [0; NOTES];
    let sets = &mut sets[..theme.len()];
    let held = if way == AnyWay::Moved(Way::Octave) {
        let class = |p: u8| (p + shift as u8) % 12;
        if tracks == 1 {
            held_along(onward, 1, theme, sets, |cells, p| u32::from(CLASS[usize::from(cells[0])] == 1 << class(p)))
        } else {
            held_along(onward, tracks, theme, sets, |cells, p| together(cells, tracks, class(p), classes_of))
        }
    } else {
        // what is moved out of 0 to 127 is made 254, which no cell is
        let pitch = |p: u8| u8::try_from(i32::from(p) + shift).map_or(254, |p| if p < 128 { p } else { 254 });
        if tracks == 1 {
            held_along(onward, 1, theme, sets, |cells, p| u32::from(cells[0] == pitch(p)))
        } else {
            held_along(onward, tracks, theme, sets, |cells, p| together(cells, tracks, pitch(p), |cells| cells))
        }
    };
    if !held {
        return refuse(13, 0);
    }
    let Some(route) = route.get_mut(..theme.len()) else { return refuse(14, 0) };
    Ok(by_stretches(sets, route))
}

/// The tracks that hold each note, track 1 as bit 0; whether each is held by some. A column in which none holds it is passed over
/// if it is empty and not the first.
#[inline]
fn held_along(onward: &[u8], tracks: usize, theme: &[u8], sets: &mut [u16], holders: impl Fn(&[u8], u8) -> u32) -> bool {
    let within = (1u32 << tracks) - 1;
    let mut columns = onward;
    for (i, (p, set)) in theme.iter().zip(sets).enumerate() {
        loop {
            if columns.is_empty() {
                return false;
            }
            *set = (holders(columns, *p) & within) as u16;
            let here;
            (here, columns) = columns.split_at(tracks);
            if *set != 0 {
                break;
            }
            if i == 0 || !empty(here) {
                return false;
            }
        }
    }
    true
}

/// The cells that have this value, eight at once; also some of the columns behind.
#[inline]
fn together(cells: &[u8], tracks: usize, wanted: u8, value: impl Fn(u64) -> u64) -> u32 {
    let wanted = ONES * u64::from(wanted);
    let low = same(value(eight(cells)), wanted);
    if tracks > 8 { low | same(value(eight(&cells[8..])), wanted) << 8 } else { low }
}

/// The first eight cells, also of the columns behind; rests where there are fewer.
#[inline]
fn eight(cells: &[u8]) -> u64 {
    u64::from_le_bytes(match cells.first_chunk() {
        Some(eight) => *eight,
        None => {
            let mut eight = [255; 8];
            eight[..cells.len()].copy_from_slice(cells);
            eight
        }
    })
}

/// A bit for each byte: 1 where both words have the same, 0 to 127.
#[inline]
fn same(one: u64, other: u64) -> u32 {
    let apart = one ^ other;
    let same = !(((apart & SEVEN_BITS) + SEVEN_BITS) | apart) & !SEVEN_BITS;
    // the highest bit of each byte, brought to the eight highest of the word
    (same.wrapping_mul(0x0002_0408_1020_4081) >> 56) as u32
}

/// The class of each byte; a rest stays above 127.
#[inline]
fn classes_of(cells: u64) -> u64 {
    let quarters = 0x007f_007f_007f_007f;
    // a twelfth of 0 to 127 is 43 in 512, rounded down
    let class = |cells: u64| cells - ((cells * 43) >> 9 & 0x000f_000f_000f_000f) * 12;
    class(cells & quarters) | class(cells >> 8 & quarters) << 8 | cells & !SEVEN_BITS
}

/// Writes the route of notes that these tracks hold, and gives its changes.
#[inline]
fn by_stretches(sets: &[u16], route: &mut [u8]) -> u8 {
    // of each note the tracks that hold it and all that follow of its stretch; where each stretch ends, the last first
    let (mut through, mut ends) = ([0; NOTES], [0; NOTES]);
    let mut stretches = 0;
    let mut all = 0;
    for (i, set) in sets.iter().enumerate().rev() {
        all &= set;
        if all == 0 {
            all = *set;
            ends[stretches] = i + 1;
            stretches += 1;
        }
        through[i] = all;
    }
    let mut track = 15;
    let mut i = 0;
    for end in ends[..stretches].iter().rev() {
        // the track before is kept while it is the lowest that there is, and one of those that go through is taken then
        while i > 0 && sets[i] >> track & 1 == 1 && through[i].trailing_zeros() > track {
            route[i] = track as u8 + 1;
            i += 1;
        }
        track = through[i].trailing_zeros();
        route[i..*end].fill(track as u8 + 1);
        i = *end;
    }
    stretches as u8 - 1
}
