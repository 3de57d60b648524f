//! The exported calls themselves: what the safe functions cannot ask, and what a refused call leaves in `answer`.

mod examples;
mod raw;

use examples::{K, K_SETS, K_SUMMARY};
use finder::{Summary, TABLE_LEN};
use raw::{unanswered, Asked, EXPLAIN_LEN};

extern "C" {
    fn finder_prepare(
        cells: *const u8, cells_len: usize, tracks: usize, sets: *mut u16, sets_len: usize, answer: *mut i64, answer_len: usize,
    ) -> i64;
    fn finder_update(
        cells: *const u8, cells_len: usize, tracks: usize, column: u16, sets: *mut u16, sets_len: usize,
        answer: *mut i64, answer_len: usize,
    ) -> i64;
    fn finder_occurs(
        cells: *const u8, cells_len: usize, tracks: usize, theme: *const u8, theme_len: usize, way: u8,
        sets: *const u16, sets_len: usize, summary: u16, table: *mut u32, table_len: usize, answer: *mut i64, answer_len: usize,
    ) -> i64;
}

/// The result where there is no call.
const NO_CALL: i64 = 255;

/// A preparation: the result, and the sets and the answer after it.
fn prepare(cells: &[u8], tracks: usize, sets: &[u16], places: usize) -> (i64, Vec<u16>, Vec<i64>) {
    let (mut sets, mut answer) = (sets.to_vec(), unanswered(places));
    // Safety: each pointer and length is of a slice.
    let result = unsafe {
        finder_prepare(
            cells.as_ptr(), cells.len(), tracks, sets.as_mut_ptr(), sets.len(), answer.as_mut_ptr(), answer.len(),
        )
    };
    (result, sets, answer)
}

/// An update: the result, and the sets and the answer after it.
fn update(cells: &[u8], tracks: usize, column: u16, sets: &[u16], places: usize) -> (i64, Vec<u16>, Vec<i64>) {
    let (mut sets, mut answer) = (sets.to_vec(), unanswered(places));
    // Safety: each pointer and length is of a slice.
    let result = unsafe {
        finder_update(
            cells.as_ptr(), cells.len(), tracks, column, sets.as_mut_ptr(), sets.len(), answer.as_mut_ptr(), answer.len(),
        )
    };
    (result, sets, answer)
}

/// A question about K: the result, whether the table is as it was, and the answer after it.
fn occurs(tracks: usize, theme: &[u8], way: u8, summary: Summary, places: usize) -> (i64, bool, Vec<i64>) {
    let (mut table, mut answer) = (vec![5; TABLE_LEN], unanswered(places));
    // Safety: each pointer and length is of a slice.
    let result = unsafe {
        finder_occurs(
            K.as_ptr(), K.len(), tracks, theme.as_ptr(), theme.len(), way, K_SETS.as_ptr(), K_SETS.len(), summary.0,
            table.as_mut_ptr(), table.len(), answer.as_mut_ptr(), answer.len(),
        )
    };
    (result, table.iter().all(|word| *word == 5), answer)
}

#[test]
fn accepted() {
    assert_eq!(prepare(&K, 2, &[9; 4], 1), (0, K_SETS.to_vec(), vec![3193]));
    assert_eq!(prepare(&[60], 1, &[], 1), (0, vec![], vec![4095]));
    assert_eq!(update(&K, 2, 3, &[3451, 9, 9, 3963], 1), (0, K_SETS.to_vec(), vec![3193]));
    for way in [0, 1] {
        assert_eq!(occurs(2, &[67, 62], way, K_SUMMARY, 1), (0, false, vec![1]));
        assert_eq!(occurs(2, &[60, 63], way, K_SUMMARY, 1), (0, false, vec![0]));
        assert_eq!(occurs(2, &[60, 69, 71], way, K_SUMMARY, 1), (0, false, vec![0]));
    }
    assert_eq!(occurs(2, &[60, 67, 69], 0, K_SUMMARY, 1).2, [0]);
    assert_eq!(occurs(2, &[60, 67, 69], 1, K_SUMMARY, 1).2, [1]);
}

#[test]
fn refused() {
    let left = unanswered(1);
    assert_eq!(prepare(&K, 2, &[9; 5], 1), (6, vec![9; 5], left.clone()));
    assert_eq!(prepare(&[60, 128], 1, &[9], 1), (3 + 256, vec![9], left.clone()));
    assert_eq!(update(&K, 2, 0, &[9; 4], 1), (19, vec![9; 4], left.clone()));
    assert_eq!(update(&K, 2, 6, &[9; 4], 1), (19, vec![9; 4], left.clone()));
    assert_eq!(update(&K, 2, 6, &[9, 9, 4096, 4096], 1), (7 + 2 * 256, vec![9, 9, 4096, 4096], left.clone()));
    assert_eq!(occurs(2, &[67, 62], 0, Summary(3192), 1), (12, true, left.clone()));
    assert_eq!(occurs(2, &[67, 162], 1, Summary(65535), 1), (5 + 256, true, left.clone()));
    assert_eq!(occurs(17, &[67], 1, Summary(65535), 1), (1, true, left));
}

#[test]
fn an_answer_of_another_length() {
    for places in [0, 2, 5] {
        let left = unanswered(places);
        assert_eq!(prepare(&K, 2, &[9; 4], places), (NO_CALL, vec![9; 4], left.clone()));
        assert_eq!(update(&K, 2, 3, &[9; 4], places), (NO_CALL, vec![9; 4], left.clone()));
        assert_eq!(occurs(2, &[67, 62], 0, K_SUMMARY, places), (NO_CALL, true, left.clone()));
        // before any refusal
        assert_eq!(prepare(&K, 17, &[9; 4], places), (NO_CALL, vec![9; 4], left.clone()));
        assert_eq!(update(&K, 0, 9, &[4096; 4], places), (NO_CALL, vec![4096; 4], left.clone()));
        assert_eq!(occurs(17, &[200], 0, Summary(65535), places), (NO_CALL, true, left));
    }
}

#[test]
fn a_way_that_the_question_does_not_take() {
    for way in [2, 3, 255] {
        assert_eq!(occurs(2, &[67, 62], way, K_SUMMARY, 1), (NO_CALL, true, unanswered(1)));
        assert_eq!(occurs(2, &[67, 62], way, K_SUMMARY, 2), (NO_CALL, true, unanswered(2)));
        // before any refusal
        assert_eq!(occurs(0, &[200], way, Summary(65535), 1), (NO_CALL, true, unanswered(1)));
    }
}

/// K with the theme 67 62 and its own sets, exact, at column 1 with shift 0.
const ASKED: Asked = Asked { cells: &K, tracks: 2, theme: &[67, 62], way: 0, column: 1, shift: 0, sets: &K_SETS };

/// The answer of the explainer: its first five numbers, the tracks, and 0 in all places behind them.
fn explained(first: [i64; 5], tracks: &[i64]) -> (i64, Vec<i64>) {
    let mut answer = [&first[..], tracks].concat();
    answer.resize(EXPLAIN_LEN, 0);
    (0, answer)
}

#[test]
fn an_explanation_in_numbers() {
    let explain = |asked: Asked| asked.explain(EXPLAIN_LEN);
    assert_eq!(explain(ASKED), explained([0, 0, 1, 0, 0], &[2, 1]));
    assert_eq!(explain(Asked { column: 4, shift: 5, ..ASKED }), explained([0, 0, 1, 0, 0], &[2, 2]));
    assert_eq!(explain(Asked { sets: &[4095; 4], ..ASKED }), explained([0, 0, 2, 1, 7], &[2, 1]));
    assert_eq!(explain(Asked { shift: 128, ..ASKED }), explained([1, 0, 1, 0, 0], &[]));
    assert_eq!(explain(Asked { way: 1, shift: 12, column: 3, ..ASKED }), explained([1, 0, 2, 1, 7], &[]));
    assert_eq!(explain(Asked { column: 0, ..ASKED }), explained([2, 0, 0, 0, 0], &[]));
    assert_eq!(explain(Asked { column: 5, ..ASKED }), explained([3, 0, 0, 0, 0], &[]));
    assert_eq!(explain(Asked { column: 65535, ..ASKED }), explained([3, 0, 0, 0, 0], &[]));
    let gap = Asked { cells: &[255, 255, 60, 67, 62, 69], sets: &[4095, 3451], ..ASKED };
    assert_eq!(explain(gap), explained([4, 0, 0, 0, 0], &[]));
    assert_eq!(explain(Asked { shift: 61, ..ASKED }), explained([5, 1, 1, 0, 0], &[]));
    assert_eq!(explain(Asked { column: 3, shift: -3, ..ASKED }), explained([6, 2, 2, 1, 7], &[]));
    assert_eq!(explain(Asked { way: 1, column: 3, shift: 9, ..ASKED }), explained([6, 2, 2, 1, 7], &[]));
    // the longest theme
    let long = Asked { cells: &[60; 32], tracks: 1, theme: &[60; 32], sets: &[0; 31], ..ASKED };
    assert_eq!(explain(long), explained([0, 0, 1, 0, 0], &[1; 32]));
}

#[test]
fn a_refused_explanation() {
    let refused = |asked: Asked| {
        // also where the shift and the column are none
        for (column, shift) in [(asked.column, asked.shift), (0, 500)] {
            let (result, answer) = Asked { column, shift, ..asked }.explain(EXPLAIN_LEN);
            assert_eq!(answer, unanswered(EXPLAIN_LEN));
            assert_eq!(result, asked.explain(EXPLAIN_LEN).0);
        }
        asked.explain(EXPLAIN_LEN).0
    };
    assert_eq!(refused(Asked { tracks: 0, ..ASKED }), 1);
    assert_eq!(refused(Asked { tracks: 17, theme: &[200], ..ASKED }), 1);
    assert_eq!(refused(Asked { tracks: 3, theme: &[200], ..ASKED }), 2);
    assert_eq!(refused(Asked { cells: &[60, 67, 128, 69], theme: &[200], ..ASKED }), 3 + 2 * 256);
    assert_eq!(refused(Asked { theme: &[200], sets: &[], ..ASKED }), 4);
    assert_eq!(refused(Asked { theme: &[67, 62, 200], sets: &[], ..ASKED }), 5 + 2 * 256);
    assert_eq!(refused(Asked { sets: &[4096; 5], ..ASKED }), 6);
    assert_eq!(refused(Asked { sets: &[4095, 4095, 4095, 4096], ..ASKED }), 7 + 3 * 256);
    // the last cell of the longest score: the highest place that a refusal names
    let mut cells = vec![60; 2048 * 16];
    cells[32767] = 254;
    assert_eq!(refused(Asked { cells: &cells, tracks: 16, ..ASKED }), 3 + 32767 * 256);
}

#[test]
fn no_explanation() {
    let wrong = Asked { tracks: 17, theme: &[200], sets: &[4096; 9], column: 0, shift: 500, ..ASKED };
    for asked in [ASKED, wrong] {
        for places in [0, 1, 5, 68, 70, 138] {
            assert_eq!(asked.explain(places), (NO_CALL, unanswered(places)));
        }
        for way in [2, 3, 255] {
            assert_eq!(Asked { way, ..asked }.explain(EXPLAIN_LEN), (NO_CALL, unanswered(EXPLAIN_LEN)));
            assert_eq!(Asked { way, ..asked }.explain(5), (NO_CALL, unanswered(5)));
        }
    }
}

/// Three tracks: 60 in the third, 62 in the first and the third, 64 in the first; and three octaves lower in the second.
const DOUBLED: [u8; 9] = [255, 24, 60, 62, 26, 62, 64, 28, 255];

/// DOUBLED with the theme 60 62 64, exact, at column 1 with shift 0.
const WANDERS: Asked = Asked { cells: &DOUBLED, tracks: 3, theme: &[60, 62, 64], ..ASKED };

#[test]
fn a_route_in_numbers() {
    let route = |asked: Asked, places: usize| asked.route(&vec![99; places], 1);
    assert_eq!(route(WANDERS, 3), (0, vec![3, 1, 1], vec![1]));
    // places behind the theme's keep their contents
    assert_eq!(route(WANDERS, 4), (0, vec![3, 1, 1, 99], vec![1]));
    assert_eq!(route(WANDERS, 9), (0, vec![3, 1, 1, 99, 99, 99, 99, 99, 99], vec![1]));
    assert_eq!(route(Asked { way: 1, ..WANDERS }, 4), (0, vec![2, 2, 2, 99], vec![0]));
    assert_eq!(route(Asked { way: 2, ..WANDERS }, 4), (0, vec![3, 1, 1, 99], vec![1]));
    assert_eq!(route(ASKED, 2), (0, vec![2, 1], vec![1]));
    assert_eq!(route(Asked { column: 4, shift: 5, ..ASKED }, 2), (0, vec![2, 2], vec![0]));
    // the longest theme, and the most changes
    let long = Asked { cells: &[60; 32], tracks: 1, theme: &[60; 32], ..ASKED };
    assert_eq!(route(long, 33), (0, [vec![1; 32], vec![99]].concat(), vec![0]));
    let turns: Vec<u8> = (0..32).flat_map(|i| if i % 2 == 0 { [60, 255] } else { [255, 60] }).collect();
    let long = Asked { cells: &turns, tracks: 2, theme: &[60; 32], ..ASKED };
    assert_eq!(route(long, 32), (0, [1, 2].repeat(16), vec![31]));
}

#[test]
fn a_refused_route() {
    // the buffer has places for the route, or too few; refusals 1 to 5 and 13 come before
    let refused = |asked: Asked| {
        let results = [0, 1, asked.theme.len(), 40].map(|places| {
            let before = vec![99; places];
            let (result, route, answer) = asked.route(&before, 1);
            assert_eq!((route, answer), (before, unanswered(1)));
            result
        });
        assert!(results.iter().all(|result| *result == results[0]), "{results:?}");
        results[0]
    };
    assert_eq!(refused(Asked { tracks: 0, ..WANDERS }), 1);
    assert_eq!(refused(Asked { tracks: 17, theme: &[200], column: 0, ..WANDERS }), 1);
    assert_eq!(refused(Asked { tracks: 2, theme: &[200], column: 0, ..WANDERS }), 2);
    assert_eq!(refused(Asked { cells: &[60, 67, 128], theme: &[200], column: 0, ..WANDERS }), 3 + 2 * 256);
    assert_eq!(refused(Asked { theme: &[200], column: 0, ..WANDERS }), 4);
    assert_eq!(refused(Asked { theme: &[60; 33], column: 0, ..WANDERS }), 4);
    assert_eq!(refused(Asked { theme: &[60, 62, 200], column: 0, ..WANDERS }), 5 + 2 * 256);
    for column in [0, 2, 3, 4, 5, 2048, 65535] {
        assert_eq!(refused(Asked { column, ..WANDERS }), 13);
    }
    for shift in [-32768, -256, -128, -1, 1, 12, 128, 256, 32767] {
        for way in [0, 1, 2] {
            assert_eq!(refused(Asked { way, shift, ..WANDERS }), 13);
        }
    }
    // one place is missing
    for way in [0, 1, 2] {
        for places in [0, 1, 2] {
            assert_eq!(Asked { way, ..WANDERS }.route(&vec![99; places], 1), (14, vec![99; places], unanswered(1)));
        }
    }
    // the last cell of the longest score: the highest place that a refusal names
    let mut cells = vec![60; 2048 * 16];
    cells[32767] = 254;
    assert_eq!(refused(Asked { cells: &cells, tracks: 16, ..WANDERS }), 3 + 32767 * 256);
}

#[test]
fn no_route() {
    let wrong = Asked { tracks: 17, theme: &[200], column: 0, shift: 500, ..WANDERS };
    for asked in [WANDERS, wrong] {
        for room in [0, 3, 9] {
            let before = vec![99; room];
            for places in [0, 2, 5, 69] {
                for way in [0, 1, 2] {
                    let left = (NO_CALL, before.clone(), unanswered(places));
                    assert_eq!(Asked { way, ..asked }.route(&before, places), left);
                }
            }
            for way in [3, 4, 127, 128, 255] {
                for places in [1, 2] {
                    let left = (NO_CALL, before.clone(), unanswered(places));
                    assert_eq!(Asked { way, ..asked }.route(&before, places), left);
                }
            }
        }
    }
}
