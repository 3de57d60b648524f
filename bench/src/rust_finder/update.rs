//! The sets after one column was changed: two of them are made anew.

use super::*;

pub fn update(cells: &[u8], tracks: usize, column: u16, sets: &mut [u16]) -> Result<Summary, Refusal> {
    let n = check_score(cells, tracks)?;
    check_sets(sets, n)?;
    let behind = usize::from(column);
    if !(1..=n).contains(&behind) {
        return refuse(19, 0);
    }
    let few = tracks < 3;
    let cells_at = |k: usize| &cells[k * tracks..(k + 1) * tracks];
    // no class where no pitch follows, and then the set has no interval
    let later = (behind..n).map(|k| classes(cells_at(k))).find(|classes| *classes != 0).unwrap_or(0);
    let here = classes(cells_at(behind - 1));
    if behind < n {
        sets[behind - 1] = set_of(here, later, few);
    }
    if let Some(k) = (0..behind - 1).rev().find(|k| !empty(cells_at(*k))) {
        sets[k] = set_of(classes(cells_at(k)), if here == 0 { later } else { here }, few);
    }
    Ok(summary_of(sets))
}
