//! Worked examples of the update of the sets after one column was changed, and its limits.

mod examples;

use examples::{having, GAPS, K, K_SETS, K_SUMMARY, R};
use finder::{update, Prepared, Refusal, Summary, Way};

/// The update of these sets; where it is refused they are as they were.
fn change(cells: &[u8], tracks: usize, column: u16, sets: &[u16]) -> Result<(Vec<u16>, u16), (u8, usize)> {
    let mut after = sets.to_vec();
    let answer = update(cells, tracks, column, &mut after);
    assert!(answer.is_ok() || after == sets);
    answer.map(|summary| (after, summary.0)).map_err(|r| (r.number, r.place))
}

/// The update of sets that were right before, which gives what a fresh preparation does.
fn change_right(before: &[u8], after: &[u8], tracks: usize, column: u16) -> (Vec<u16>, u16) {
    let mut prepared = Prepared::new(before, tracks).unwrap();
    let changed = change(after, tracks, column, prepared.sets()).unwrap();
    prepared.update(after, tracks, column).unwrap();
    assert_eq!((prepared.sets(), prepared.summary()), (&changed.0[..], Summary(changed.1)));
    assert_eq!(prepared, Prepared::new(after, tracks).unwrap());
    changed
}

/// K with another column, counted from 1.
fn k_with(column: usize, cells: [u8; 2]) -> [u8; 10] {
    let mut k = K;
    k[2 * column - 2..2 * column].copy_from_slice(&cells);
    k
}

#[test]
fn updates_of_k() {
    // column 3, with 63 for 64: sets 2 (1 and 6) and 3 (2 and 9)
    let (sets, summary) = change_right(&K, &k_with(3, [R, 63]), 2, 3);
    assert_eq!((sets, summary), (vec![3451, 4029, 3579, 3963], having(&[1, 2, 6, 7, 9])));
    // column 3 without a pitch: set 2 goes on to column 4 (3, 8 and 10), and set 3 has no interval
    let (sets, summary) = change_right(&K, &k_with(3, [R, R]), 2, 3);
    assert_eq!((sets, summary), (vec![3451, 2807, 4095, 3963], having(&[2, 3, 7, 8, 9, 10])));
    // the last column, with 68 for 67, has no set of its own: set 4 (3 and 8)
    let (sets, summary) = change_right(&K, &k_with(5, [R, 68]), 2, 5);
    assert_eq!((sets, summary), (vec![3451, 3963, 3837, 3831], having(&[1, 2, 3, 7, 8, 9])));
    // column 1, with 61 for 60, has none before it: set 1 (1, 2, 7 and 8)
    let (sets, summary) = change_right(&K, &k_with(1, [61, 67]), 2, 1);
    assert_eq!((sets, summary), (vec![3705, 3963, 3837, 3963], having(&[1, 2, 7, 8])));
    // nothing changed
    for column in 1..=5 {
        assert_eq!(change_right(&K, &K, 2, column), (K_SETS.to_vec(), 3193));
    }
}

#[test]
fn updates_over_columns_without_a_pitch() {
    // a pitch in column 4: the nearest earlier column with one is 2, since 3 has none
    let (sets, summary) = change_right(&GAPS, &[R, 60, R, 61, 62, 64, R], 1, 4);
    assert_eq!((sets, summary), (vec![4095, 4093, 4095, 4093, 4091, 4095], having(&[1, 2])));
    // column 5 without one: column 2 goes on to column 6
    let (sets, summary) = change_right(&GAPS, &[R, 60, R, R, R, 64, R], 1, 5);
    assert_eq!((sets, summary), (vec![4095, 4079, 4095, 4095, 4095, 4095], having(&[4])));
    // a pitch in front, and one behind
    let (sets, summary) = change_right(&GAPS, &[59, 60, R, R, 62, 64, R], 1, 1);
    assert_eq!((sets, summary), (vec![4093, 4091, 4095, 4095, 4091, 4095], having(&[1, 2])));
    let (sets, summary) = change_right(&GAPS, &[R, 60, R, R, 62, 64, 71], 1, 7);
    assert_eq!((sets, summary), (vec![4095, 4091, 4095, 4095, 4091, 3967], having(&[2, 7])));
    // the first pitch of all, and the only one taken out
    assert_eq!(change_right(&[R; 3], &[R, 60, R], 1, 2), (vec![4095; 2], 4095));
    assert_eq!(change_right(&[R, 60, R], &[R; 3], 1, 2), (vec![4095; 2], 4095));
    // the only column
    assert_eq!(change_right(&[60], &[R], 1, 1), (vec![], 4095));
    // the longest score, at both ends of a rest that is nearly all of it
    let (mut before, mut after) = ([R; 2048], [R; 2048]);
    before[0] = 60;
    after[0] = 60;
    after[2047] = 65;
    let (sets, summary) = change_right(&before, &after, 1, 2048);
    assert_eq!((sets[0], summary), (having(&[5]), having(&[5])));
    assert!(sets[1..].iter().all(|set| *set == 4095));
}

#[test]
fn wrong_sets_stay() {
    // only those of columns 2 and 3 are made anew, and the summary is of all
    assert_eq!(change(&K, 2, 3, &[7; 4]), Ok((vec![7, 3963, 3837, 7], 7 & 3963 & 3837)));
    assert_eq!(change(&K, 2, 5, &[0, 1, 2, 3]), Ok((vec![0, 1, 2, 3963], 0)));
    assert_eq!(change(&K, 2, 1, &[4095; 4]), Ok((vec![3451, 4095, 4095, 4095], 3451)));
    // the set of an empty column between the two stays too
    assert_eq!(change(&GAPS, 1, 5, &[9; 6]), Ok((vec![9, 4091, 9, 9, 4091, 9], 9)));
    // no earlier column has a pitch
    assert_eq!(change(&GAPS, 1, 2, &[9; 6]), Ok((vec![9, 4091, 9, 9, 9, 9], 9)));
    assert_eq!(change(&[R; 4], 1, 4, &[1, 2, 3]), Ok((vec![1, 2, 3], 0)));
    assert_eq!(change(&[R; 4], 1, 3, &[1, 3, 5]), Ok((vec![1, 3, 4095], 1)));
}

#[test]
fn changed_columns_at_the_limits() {
    for column in 1..=5 {
        assert!(change(&K, 2, column, &K_SETS).is_ok());
    }
    for column in [0, 6, 7, 2048, 2049, 65535] {
        assert_eq!(change(&K, 2, column, &K_SETS), Err((19, 0)));
    }
    for (column, refused) in [(0, true), (1, false), (2, true)] {
        assert_eq!(change(&[60], 1, column, &[]), if refused { Err((19, 0)) } else { Ok((vec![], 4095)) });
    }
    assert!(change(&[60; 2048], 1, 2048, &[4094; 2047]).is_ok());
    assert_eq!(change(&[60; 2048], 1, 2049, &[4094; 2047]), Err((19, 0)));
}

#[test]
fn the_update_refuses_in_order() {
    let bad_cells = [60, 128, 62];
    assert_eq!(change(&bad_cells, 17, 0, &[4096; 3]), Err((1, 0)));
    assert_eq!(change(&bad_cells, 2, 0, &[4096; 3]), Err((2, 0)));
    assert_eq!(change(&[], 1, 0, &[4096; 3]), Err((2, 0)));
    assert_eq!(change(&bad_cells, 1, 0, &[4096; 3]), Err((3, 1)));
    assert_eq!(change(&[60, R, 62], 1, 0, &[4096; 3]), Err((6, 0)));
    assert_eq!(change(&[60, R, 62], 1, 0, &[4095, 4096]), Err((7, 1)));
    // also where the set over 4095 would be made anew
    assert_eq!(change(&[60, R, 62], 1, 1, &[65535, 4095]), Err((7, 0)));
    assert_eq!(change(&[60, R, 62], 1, 0, &[4095, 4095]), Err((19, 0)));
    assert_eq!(change(&[60, R, 62], 1, 4, &[4095, 4095]), Err((19, 0)));
    assert_eq!(change(&[60, R, 62], 1, 3, &[4095, 4095]), Ok((vec![4091, 4095], 4091)));
}

#[test]
fn what_is_prepared_stays_where_an_update_is_refused() {
    let mut prepared = Prepared::new(&K, 2).unwrap();
    assert_eq!(prepared.update(&K, 2, 6), Err(Refusal { number: 19, place: 0 }));
    assert_eq!(prepared.update(&K[..8], 2, 1), Err(Refusal { number: 6, place: 0 }));
    assert_eq!(prepared.occurs(&K[..8], 2, &[67, 62], Way::Exact), Err(Refusal { number: 6, place: 0 }));
    assert_eq!((prepared.sets(), prepared.summary()), (&K_SETS[..], K_SUMMARY));
    assert_eq!(Prepared::new(&K, 0).unwrap_err().number, 1);
    assert_eq!(Prepared::new(&[60; 2049], 1).unwrap_err().number, 2);
    assert_eq!(Prepared::new(&[200], 1).unwrap_err().number, 3);
}
