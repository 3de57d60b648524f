//! Worked examples of the summary and of the question whether a theme occurs, and their limits.

mod examples;

use examples::{having, GAPS, GAPS_SETS, K, K_SETS, K_SUMMARY, R};
use finder::{occurs, pairs, prepare, Prepared, Refusal, Summary, Way, TABLE_LEN};

const WAYS: [Way; 2] = [Way::Exact, Way::Octave];

/// The theme's table, by its definition.
fn table_of(theme: &[u8]) -> Vec<u32> {
    let has = |l: usize, i: usize| l >> (i32::from(theme[i + 1]) - i32::from(theme[i])).rem_euclid(12) & 1 == 0;
    let word = |l| (0..theme.len() - 1).filter(|i| has(l, *i)).fold(!0, |word: u32, i| word & !(1 << i));
    (0..TABLE_LEN).map(word).collect()
}

/// The question; where it is accepted the table is the theme's, and otherwise it is as it was.
fn ask(cells: &[u8], tracks: usize, theme: &[u8], way: Way, sets: &[u16], summary: u16) -> Result<bool, (u8, usize)> {
    let mut table = vec![5; TABLE_LEN];
    let answer = occurs(cells, tracks, theme, way, sets, Summary(summary), &mut table);
    assert!(table == if answer.is_ok() { table_of(theme) } else { vec![5; TABLE_LEN] });
    answer.map_err(|r| (r.number, r.place))
}

/// The question by the score's own sets, which is about the full list.
fn ask_own(cells: &[u8], tracks: usize, theme: &[u8], way: Way) -> bool {
    let prepared = Prepared::new(cells, tracks).unwrap();
    let answer = ask(cells, tracks, theme, way, prepared.sets(), prepared.summary().0).unwrap();
    assert_eq!(prepared.occurs(cells, tracks, theme, way), Ok(answer));
    assert_eq!(pairs(cells, tracks, theme, way).unwrap().next().is_some(), answer);
    answer
}

#[test]
fn summaries() {
    let summary = |cells: &[u8], tracks| Prepared::new(cells, tracks).unwrap().summary().0;
    let mut sets = [7; 4];
    assert_eq!((prepare(&K, 2, &mut sets), sets), (Ok(K_SUMMARY), K_SETS));
    assert_eq!(K_SUMMARY.0, having(&[1, 2, 7, 8, 9]));
    let mut sets = [7; 6];
    assert_eq!((prepare(&GAPS, 1, &mut sets), sets), (Ok(Summary(having(&[2]))), GAPS_SETS));
    assert_eq!(summary(&[60, R, 62], 1), 4091);
    assert_eq!(summary(&[120, 0], 1), having(&[0]));
    assert_eq!(summary(&[61, 60], 1), having(&[11]));
    // all intervals, one after another
    assert_eq!(summary(&[60, 60, 61, 63, 66, 70, 75, 81, 76, 72, 69, 67, 66], 1), 0);
    // no interval, and no sets
    assert_eq!(summary(&[R; 4], 1), 4095);
    assert_eq!(summary(&[60, R, R], 1), 4095);
    assert_eq!(summary(&[60], 1), 4095);
    assert_eq!(prepare(&[60], 1, &mut []), Ok(Summary(4095)));

    assert_eq!(Summary::of(&K_SETS), K_SUMMARY);
    assert_eq!(Summary::of(&[]), Summary(4095));
    assert_eq!(Summary::of(&[0]), Summary(0));
}

#[test]
fn a_refused_preparation_says_no_summary() {
    let mut sets = [7; 4];
    assert_eq!(prepare(&K, 2, &mut sets[..3]), Err(Refusal { number: 6, place: 0 }));
    assert_eq!(prepare(&K, 3, &mut sets), Err(Refusal { number: 2, place: 0 }));
    assert_eq!(sets, [7; 4]);
}

#[test]
fn questions_of_k() {
    for way in WAYS {
        assert!(ask_own(&K, 2, &[67, 62], way));
        assert!(ask_own(&K, 2, &[60, 62, 64], way));
        // an interval of 3 is in no set: the summary alone says no
        assert!(!ask_own(&K, 2, &[60, 63], way));
        assert!(!ask_own(&K, 2, &[60, 62, 65], way));
        // 1 is in set 3 alone, and so not in two sets one after another
        assert!(!ask_own(&K, 2, &[60, 61, 62], way));
        // each interval is in its set at column 1, and yet there is no pair
        assert!(!ask_own(&K, 2, &[60, 69, 71], way));
        // more notes than columns
        assert!(!ask_own(&K, 2, &[60, 62, 64, 65, 67, 69], way));
    }
    assert!(!ask_own(&K, 2, &[60, 67, 69], Way::Exact));
    assert!(ask_own(&K, 2, &[60, 67, 69], Way::Octave));
}

#[test]
fn questions_at_the_ends_of_the_range() {
    assert!(ask_own(&[0, 0], 1, &[127, 127], Way::Exact));
    assert!(ask_own(&[127, 127], 1, &[0, 0], Way::Exact));
    assert!(!ask_own(&[120, 0], 1, &[0, 12], Way::Exact));
    assert!(ask_own(&[120, 0], 1, &[0, 12], Way::Octave));
    // only the last place of a long score
    let mut long = [60; 2048];
    long[2047] = 61;
    for way in WAYS {
        assert!(ask_own(&long, 1, &[60, 61], way));
        assert!(!ask_own(&long, 1, &[60, 61, 61], way));
        assert!(ask_own(&long, 1, &[60; 32], way));
        // one column, or one with a pitch: no theme has room
        assert!(!ask_own(&[60], 1, &[60, 60], way));
        assert!(!ask_own(&[60, R, R], 1, &[60, 60], way));
        assert!(!ask_own(&[R; 4], 1, &[60, 60], way));
    }
}

#[test]
fn questions_over_columns_without_a_pitch() {
    for way in WAYS {
        assert!(ask_own(&[60, R, 62], 1, &[60, 62], way));
        assert!(ask_own(&GAPS, 1, &[60, 62, 64], way));
        assert!(!ask_own(&GAPS, 1, &[60, 62, 64, 66], way));
        assert!(!ask_own(&GAPS, 1, &[60, 61], way));
    }
}

#[test]
fn questions_by_other_sets() {
    for way in WAYS {
        // sets that have every interval leave all to the notes
        assert_eq!(ask(&K, 2, &[67, 62], way, &[0; 4], 0), Ok(true));
        assert_eq!(ask(&K, 2, &[60, 63], way, &[0; 4], 0), Ok(false));
        // sets that have none
        assert_eq!(ask(&K, 2, &[67, 62], way, &[4095; 4], 4095), Ok(false));
        // 67 62 stands at columns 1, 2 and 4: by these sets at column 4 alone, and by these nowhere
        assert_eq!(ask(&K, 2, &[67, 62], way, &[4095, 4095, 4095, 3963], 3963), Ok(true));
        assert_eq!(ask(&K, 2, &[67, 62], way, &[4095, 4095, 3967, 4095], 3967), Ok(false));
        // the set of a column without a pitch makes no candidate, though the summary has its interval
        assert_eq!(ask(&[60, R, 62], 1, &[60, 62], way, &[4095, 4091], 4091), Ok(false));
        assert_eq!(ask(&[60, R, 62], 1, &[60, 62], way, &[4091, 0], 0), Ok(true));
        // the last column with a pitch has too few behind it
        assert_eq!(ask(&[60, R, R], 1, &[60, 60], way, &[0, 0], 0), Ok(false));
    }
}

#[test]
fn a_summary_that_is_not_that_of_the_sets() {
    let theme = [67, 62];
    for way in WAYS {
        assert_eq!(ask(&K, 2, &theme, way, &K_SETS, 3193), Ok(true));
        for d in 0..16 {
            assert_eq!(ask(&K, 2, &theme, way, &K_SETS, 3193 ^ 1 << d), Err((12, 0)));
            assert_eq!(ask(&[60], 1, &theme, way, &[], 4095 ^ 1 << d), Err((12, 0)));
        }
        for summary in [0, 4095, 4096, 3193 + 4096, 65535] {
            assert_eq!(ask(&K, 2, &theme, way, &K_SETS, summary), Err((12, 0)));
        }
        // also where the answer by it would be no
        assert_eq!(ask(&K, 2, &[60, 63], way, &K_SETS, 3192), Err((12, 0)));
        assert_eq!(ask(&[60], 1, &theme, way, &[], 4095), Ok(false));
    }
}

#[test]
fn the_question_refuses_in_order() {
    // everything is wrong, and is put right bit by bit
    let bad_cells = [60, 128, 62];
    let ask = |cells: &[u8], tracks, theme: &[u8], sets: &[u16], summary, table: usize| {
        let mut table = vec![5; table];
        let answer = occurs(cells, tracks, theme, Way::Exact, sets, Summary(summary), &mut table);
        assert!(answer.is_ok() || table.iter().all(|word| *word == 5));
        answer.map_err(|r| (r.number, r.place))
    };
    assert_eq!(ask(&bad_cells, 17, &[200], &[4096; 3], 65535, 4095), Err((1, 0)));
    assert_eq!(ask(&bad_cells, 0, &[200], &[4096; 3], 65535, 4095), Err((1, 0)));
    assert_eq!(ask(&bad_cells, 2, &[200], &[4096; 3], 65535, 4095), Err((2, 0)));
    assert_eq!(ask(&bad_cells, 1, &[200], &[4096; 3], 65535, 4095), Err((3, 1)));
    assert_eq!(ask(&[60, R, 62], 1, &[200], &[4096; 3], 65535, 4095), Err((4, 0)));
    assert_eq!(ask(&[60, R, 62], 1, &[60, 200], &[4096; 3], 65535, 4095), Err((5, 1)));
    assert_eq!(ask(&[60, R, 62], 1, &[60, 62], &[4096; 3], 65535, 4095), Err((6, 0)));
    assert_eq!(ask(&[60, R, 62], 1, &[60, 62], &[4091, 4096], 65535, 4095), Err((7, 1)));
    assert_eq!(ask(&[60, R, 62], 1, &[60, 62], &[4091, 4095], 65535, 4095), Err((8, 0)));
    assert_eq!(ask(&[60, R, 62], 1, &[60, 62], &[4091, 4095], 65535, 4097), Err((8, 0)));
    assert_eq!(ask(&[60, R, 62], 1, &[60, 62], &[4091, 4095], 65535, 0), Err((8, 0)));
    assert_eq!(ask(&[60, R, 62], 1, &[60, 62], &[4091, 4095], 65535, 4096), Err((12, 0)));
    assert_eq!(ask(&[60, R, 62], 1, &[60, 62], &[4091, 4095], 4091, 4096), Ok(true));
    // a theme of 33 notes, of which one is none, and a theme of 32
    assert_eq!(ask(&K, 2, &[200; 33], &K_SETS, 3193, 4096), Err((4, 0)));
    assert_eq!(ask(&K, 2, &[60; 32], &K_SETS, 3193, 4096), Ok(false));
}
