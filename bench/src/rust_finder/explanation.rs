//! Why a pair is listed or not, in the numbers of the exported call. One walk from the pair's column on finds the columns of the
//! notes; the intervals and the notes are then gone through, each up to the first that fails.

use super::*;
use finder::Pair;

/// How many numbers are answered.
pub const EXPLAIN_LEN: usize = 69;

/// Where the tracks begin among them.
const FIRST_TRACK: usize = 5;

pub fn explain(
    cells: &[u8],
    tracks: usize,
    theme: &[u8],
    way: Way,
    pair: Pair,
    sets: &[u16],
    answer: &mut [i64; EXPLAIN_LEN],
) -> Result<(), Refusal> {
    let n = check_score(cells, tracks)?;
    check_theme(theme)?;
    check_sets(sets, n)?;
    answer.fill(0);
    let no_shift = match way {
        Way::Exact => !(-127..=127).contains(&pair.shift),
        Way::Octave => !(0..=11).contains(&pair.shift),
    };
    let mut numbers = [0; 32];
    let numbers = &mut numbers[..theme.len()];
    let fault = column_fault(cells, tracks, n, pair.column.into(), numbers);
    if fault == 0 {
        if let Some((i, size)) = first_lacking(theme, sets, numbers) {
            answer[2..5].copy_from_slice(&[2, i as i64 + 1, size as i64]);
        } else {
            answer[2] = 1;
        }
    }
    if no_shift || fault > 0 {
        answer[0] = if no_shift { 1 } else { fault };
        return Ok(());
    }
    let column = |k: &u16| &cells[usize::from(*k) * tracks..][..tracks];
    let (head, named) = answer.split_at_mut(FIRST_TRACK);
    let notes = named.iter_mut().zip(theme.iter().zip(numbers.iter().map(column)));
    let shift = i32::from(pair.shift);
    let failed = match way {
        // a number that is no pitch is no cell's: it is 254 at most
        Way::Exact => first_absent(notes, |p| p + shift, i32::from),
        Way::Octave => first_absent(notes, |p| 1 << ((p + shift) % 12), |cell| i32::from(CLASS[usize::from(cell)])),
    };
    if let Some(i) = failed {
        let outside = way == Way::Exact && !(0..128).contains(&(i32::from(theme[i]) + shift));
        (head[0], head[1]) = (if outside { 5 } else { 6 }, i as i64 + 1);
        named[..i].fill(0);
    }
    Ok(())
}

/// The number of what is wrong with a column, counted from 1; 0 where nothing is. The columns of the notes, counted from 0, are
/// then in `numbers`.
fn column_fault(cells: &[u8], tracks: usize, n: usize, column: usize, numbers: &mut [u16]) -> i64 {
    if column == 0 {
        return 2;
    }
    if column + numbers.len() > n + 1 {
        return 3;
    }
    let mut onward = cells[(column - 1) * tracks..].chunks_exact(tracks).enumerate().filter(|(_, cells)| !empty(cells));
    for number in numbers.iter_mut() {
        let Some((after, _)) = onward.next() else { return 3 };
        *number = (column - 1 + after) as u16;
    }
    if usize::from(numbers[0]) == column - 1 { 0 } else { 4 }
}

/// The first interval that is not in its set, counted from 0, with its size.
#[inline]
fn first_lacking(theme: &[u8], sets: &[u16], numbers: &[u16]) -> Option<(usize, usize)> {
    let intervals = theme.windows(2).map(|two| (usize::from(two[1]) + 132 - usize::from(two[0])) % 12);
    intervals.zip(numbers).enumerate().find(|(_, (d, k))| sets[usize::from(**k)] >> d & 1 == 1).map(|(i, (d, _))| (i, d))
}

/// The first note, counted from 0, that its column does not hold. The tracks of those before it are written.
#[inline]
fn first_absent<'a>(
    notes: impl Iterator<Item = (&'a mut i64, (&'a u8, &'a [u8]))>,
    wanted: impl Fn(i32) -> i32,
    value: impl Fn(u8) -> i32,
) -> Option<usize> {
    for (i, (named, (p, column))) in notes.enumerate() {
        let want = wanted(i32::from(*p));
        let Some(track) = column.iter().position(|cell| value(*cell) == want) else { return Some(i) };
        *named = track as i64 + 1;
    }
    None
}
