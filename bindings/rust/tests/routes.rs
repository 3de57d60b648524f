//! Worked examples of who plays a listed pair, what is refused, and the words for both.

mod examples;

use examples::{GAPS, K, R};
use finder::{route, route_into, AnyWay, Pair, Refusal, Route, Way};

const EXACT: AnyWay = AnyWay::Moved(Way::Exact);
const OCTAVE: AnyWay = AnyWay::Moved(Way::Octave);
const WAYS: [AnyWay; 3] = [EXACT, OCTAVE, AnyWay::Written];

/// Three tracks through which 62 64 66 wanders, from the second column on.
const WANDER: [u8; 15] = [59, 55, R, 62, R, 50, R, 64, 48, 65, R, 66, 72, 60, R];

/// The route, by both safe functions, as tracks and changes; or the number of the refusal.
fn routed(cells: &[u8], tracks: usize, theme: &[u8], way: AnyWay, column: u16, shift: i16) -> Result<(Vec<u8>, u8), u8> {
    let pair = Pair { column, shift };
    let answer = route(cells, tracks, theme, way, pair);
    let mut buffer = [77; 40];
    let into = route_into(cells, tracks, theme, way, pair, &mut buffer);
    let written = if into.is_ok() { theme.len() } else { 0 };
    assert!(buffer[written..].iter().all(|place| *place == 77));
    assert_eq!(answer, into.map(|changes| Route { tracks: buffer[..written].to_vec(), changes }));
    answer.map(|route| (route.tracks, route.changes)).map_err(|refusal| refusal.number)
}

/// A score in which note i is held by these tracks and by no other, with the theme 60 61 62 .., each note in its own column.
fn held_by(tracks: usize, holders: &[&[usize]]) -> (Vec<u8>, Vec<u8>) {
    let theme: Vec<u8> = (60..).take(holders.len()).collect();
    let mut cells = vec![R; tracks * holders.len()];
    for (i, held) in holders.iter().enumerate() {
        // a tritone away where the note is not held, and not in every cell
        for (t, cell) in cells[i * tracks..][..tracks].iter_mut().enumerate() {
            *cell = if held.contains(&(t + 1)) { theme[i] } else if t % 2 == 0 { theme[i] + 6 } else { R };
        }
    }
    (cells, theme)
}

/// The route where the notes are held by these tracks, which is the same in each way.
fn by(tracks: usize, holders: &[&[usize]]) -> (Vec<u8>, u8) {
    let (cells, theme) = held_by(tracks, holders);
    let routes = WAYS.map(|way| routed(&cells, tracks, &theme, way, 1, 0).unwrap());
    assert!(routes[0] == routes[1] && routes[1] == routes[2], "{routes:?}");
    routes[0].clone()
}

#[test]
fn a_tune_that_wanders() {
    assert_eq!(routed(&WANDER, 3, &[60, 62, 64], EXACT, 2, 2), Ok((vec![1, 2, 3], 2)));
    assert_eq!(routed(&WANDER, 3, &[60, 62, 64], OCTAVE, 2, 2), Ok((vec![1, 2, 3], 2)));
    assert_eq!(routed(&WANDER, 3, &[62, 64, 66], AnyWay::Written, 2, 0), Ok((vec![1, 2, 3], 2)));
}

#[test]
fn pairs_of_k() {
    assert_eq!(routed(&K, 2, &[67, 62], EXACT, 1, 0), Ok((vec![2, 1], 1)));
    assert_eq!(routed(&K, 2, &[67, 62], EXACT, 4, 5), Ok((vec![2, 2], 0)));
    assert_eq!(routed(&K, 2, &[60, 62, 64], EXACT, 1, 0), Ok((vec![1, 1, 1], 0)));
    assert_eq!(routed(&K, 2, &[60, 67, 69], OCTAVE, 1, 7), Ok((vec![2, 1, 1], 1)));
}

#[test]
fn the_fewest_changes() {
    // a track that has all notes, though lower ones have some
    assert_eq!(by(2, &[&[1, 2], &[2], &[1, 2]]), (vec![2, 2, 2], 0));
    assert_eq!(by(3, &[&[1, 3], &[2, 3], &[1, 3], &[2, 3]]), (vec![3, 3, 3, 3], 0));
    // whoever stays as long as he can changes as seldom, but here not first
    assert_eq!(by(3, &[&[3], &[1, 3], &[1]]), (vec![3, 1, 1], 1));
    // a low track would be left too soon
    assert_eq!(by(3, &[&[1, 2], &[2], &[2, 3], &[3]]), (vec![2, 2, 2, 3], 1));
    assert_eq!(by(4, &[&[1, 4], &[2, 4], &[3, 4], &[1, 2]]), (vec![4, 4, 4, 1], 1));
    // each note in another track
    assert_eq!(by(3, &[&[3], &[1], &[2], &[1], &[3]]), (vec![3, 1, 2, 1, 3], 4));
    // all have all
    assert_eq!(by(3, &[&[1, 2, 3][..]; 5]), (vec![1; 5], 0));
}

#[test]
fn the_first_of_those_with_the_fewest_changes() {
    // the one change can be early or late: early to a lower track, late to a higher one
    assert_eq!(by(2, &[&[2], &[1, 2], &[1, 2], &[1]]), (vec![2, 1, 1, 1], 1));
    assert_eq!(by(2, &[&[1], &[1, 2], &[1, 2], &[2]]), (vec![1, 1, 1, 2], 1));
    // 2 1 1 and 2 2 1 and 2 3 3 have one change
    assert_eq!(by(3, &[&[2], &[1, 2, 3], &[1, 3]]), (vec![2, 1, 1], 1));
    // 2 1 3 would come first, and has two
    assert_eq!(by(3, &[&[2], &[1, 2, 3], &[3]]), (vec![2, 2, 3], 1));
    assert_eq!(by(3, &[&[2, 3], &[1, 3], &[1, 2]]), (vec![2, 1, 1], 1));
    // the first note decides before all others
    assert_eq!(by(4, &[&[2, 3], &[2, 3], &[1, 4], &[1, 4]]), (vec![2, 2, 1, 1], 1));
    assert_eq!(by(4, &[&[3, 4], &[3, 4, 1], &[2, 1], &[2, 1]]), (vec![3, 1, 1, 1], 1));
    // two changes: back to the track from which it came
    assert_eq!(by(3, &[&[1], &[1, 3], &[2], &[1, 3], &[1]]), (vec![1, 1, 2, 1, 1], 2));
    assert_eq!(by(3, &[&[3], &[1, 2], &[1, 2, 3], &[2, 3], &[3]]), (vec![3, 1, 1, 3, 3], 2));
}

#[test]
fn any_cell_of_the_class() {
    // 60 in the third track, its octaves in the first; 62 two octaves lower in the second alone; 64 in all
    let cells = [72, 61, 60, R, 38, 61, 76, 16, 64];
    assert_eq!(routed(&cells, 3, &[60, 62, 64], OCTAVE, 1, 0), Ok((vec![1, 2, 2], 1)));
    assert_eq!(routed(&cells, 3, &[60, 62, 64], EXACT, 1, 0), Err(13));
    let cells = [72, 61, 60, R, 38, 62, 76, 16, 64];
    assert_eq!(routed(&cells, 3, &[60, 62, 64], EXACT, 1, 0), Ok((vec![3, 3, 3], 0)));
    assert_eq!(routed(&cells, 3, &[60, 62, 64], AnyWay::Written, 1, 0), Ok((vec![3, 3, 3], 0)));
    assert_eq!(routed(&cells, 3, &[60, 62, 64], OCTAVE, 1, 0), Ok((vec![3, 3, 3], 0)));
    // the lowest pitches and the highest
    assert_eq!(routed(&[0, 127, 7, 120], 2, &[0, 7], OCTAVE, 1, 0), Ok((vec![1, 1], 0)));
    assert_eq!(routed(&[120, R, R, 127], 2, &[0, 7], OCTAVE, 1, 0), Ok((vec![1, 2], 1)));
    assert_eq!(routed(&[11, 119, R, 11], 2, &[127, 127], OCTAVE, 1, 4), Ok((vec![2, 2], 0)));
}

#[test]
fn over_columns_without_a_pitch() {
    for way in WAYS {
        assert_eq!(routed(&GAPS, 1, &[60, 62, 64], way, 2, 0), Ok((vec![1, 1, 1], 0)));
        assert_eq!(routed(&GAPS, 1, &[60, 62, 64], way, 1, 0), Err(13));
        // a rest parts no two notes of a track
        let cells = [R, R, R, 60, R, R, 62, 62, R, R, 64, R, R, R];
        assert_eq!(routed(&cells, 2, &[60, 62, 64], way, 2, 0), Ok((vec![2, 1, 1], 1)));
        assert_eq!(routed(&cells, 2, &[62, 64], way, 4, 0), Ok((vec![1, 1], 0)));
        for column in [0, 1, 3, 5, 6, 7, 8] {
            assert_eq!(routed(&cells, 2, &[60, 62, 64], way, column, 0), Err(13));
            assert_eq!(routed(&cells, 2, &[62, 64], way, column, 0), Err(13));
        }
    }
}

#[test]
fn most_tracks_and_most_notes() {
    assert_eq!(by(16, &[&[16], &[1, 16], &[1]]), (vec![16, 1, 1], 1));
    assert_eq!(by(16, &[&[15, 16], &[16], &[8, 16]]), (vec![16, 16, 16], 0));
    assert_eq!(by(16, &[&[16][..]; 32]), (vec![16; 32], 0));
    assert_eq!(by(1, &[&[1][..]; 32]), (vec![1; 32], 0));
    let all: Vec<usize> = (1..=16).collect();
    assert_eq!(by(16, &[&all[..]; 32]), (vec![1; 32], 0));
    let turns: [&[usize]; 32] = std::array::from_fn(|i| if i % 2 == 0 { &[16][..] } else { &[1][..] });
    assert_eq!(by(16, &turns), ([16, 1].repeat(16), 31));
    // each track shares a note with the next, which stays with the lower
    let chain: Vec<Vec<usize>> = (2..34usize).map(|i| (i / 2..=i.div_ceil(2)).filter(|t| *t <= 16).collect()).collect();
    let chain: Vec<&[usize]> = chain.iter().map(Vec::as_slice).collect();
    assert_eq!(by(16, &chain), ((0..32).map(|i| i / 2 + 1).collect(), 15));
    // two notes are the fewest
    assert_eq!(by(2, &[&[2], &[1, 2]]), (vec![2, 2], 0));
    assert_eq!(by(2, &[&[1], &[2]]), (vec![1, 2], 1));
    // the last columns of the longest score
    let cells: Vec<u8> = [vec![60; 2047 * 16], vec![R; 15], vec![60]].concat();
    for way in WAYS {
        assert_eq!(routed(&cells, 16, &[60, 60], way, 1, 0), Ok((vec![1, 1], 0)));
        assert_eq!(routed(&cells, 16, &[60, 60], way, 2047, 0), Ok((vec![16, 16], 0)));
        assert_eq!(routed(&cells, 16, &[60; 32], way, 2017, 0), Ok((vec![16; 32], 0)));
        assert_eq!(routed(&cells, 16, &[60; 32], way, 2018, 0), Err(13));
        assert_eq!(routed(&cells, 16, &[60, 60], way, 2048, 0), Err(13));
    }
}

#[test]
fn shifts_of_a_way() {
    let same = Ok((vec![1, 1], 0));
    assert_eq!(routed(&[0, 0], 1, &[127, 127], EXACT, 1, -127), same);
    assert_eq!(routed(&[127, 127], 1, &[0, 0], EXACT, 1, 127), same);
    for shift in [-129, -128, -126, 126, 128, 129, 255, 256, i16::MIN, i16::MAX] {
        assert_eq!(routed(&[0, 0], 1, &[127, 127], EXACT, 1, shift), Err(13));
        assert_eq!(routed(&[127, 127], 1, &[0, 0], EXACT, 1, shift), Err(13));
    }
    // a note that is moved to -1, or would be moved to 255, is no rest; nor is class 3, which is what 255 leaves
    assert_eq!(routed(&[60, R, 60, R], 2, &[5, 5], EXACT, 1, -6), Err(13));
    assert_eq!(routed(&[60, R, 60, R], 2, &[127, 127], EXACT, 1, 128), Err(13));
    assert_eq!(routed(&[60, R, 60, R], 2, &[3, 3], OCTAVE, 1, 0), Err(13));
    // nor is a note above 127 one that is lower by as much
    assert_eq!(routed(&[2, 2], 1, &[120, 120], EXACT, 1, 10), Err(13));
    // 12 and -12 are the class of 0, and no shifts of octave
    assert_eq!(routed(&[71, 71], 1, &[60, 60], OCTAVE, 1, 11), same);
    for shift in [-13, -12, -1, 0, 10, 12, 23, i16::MIN, i16::MAX] {
        assert_eq!(routed(&[71, 71], 1, &[60, 60], OCTAVE, 1, shift), Err(13));
    }
    assert_eq!(routed(&[72, 60], 1, &[60, 60], OCTAVE, 1, 0), same);
    assert_eq!(routed(&[72, 60], 1, &[60, 60], OCTAVE, 1, 12), Err(13));
    // in its own key a tune has shift 0 alone, also where exact has another
    assert_eq!(routed(&[62, 62], 1, &[60, 60], EXACT, 1, 2), same);
    assert_eq!(routed(&[62, 62], 1, &[60, 60], AnyWay::Written, 1, 2), Err(13));
    assert_eq!(routed(&[62, 62], 1, &[60, 60], AnyWay::Written, 1, 0), Err(13));
    assert_eq!(routed(&[62, 62], 1, &[62, 62], AnyWay::Written, 1, 0), same);
    assert_eq!(routed(&[62, 62], 1, &[62, 62], AnyWay::Written, 1, 1), Err(13));
}

#[test]
fn a_pair_that_is_not_listed() {
    for way in WAYS {
        // column 0, the last, those behind it
        for column in [0, 5, 6, 7, 2048, 2049, u16::MAX] {
            assert_eq!(routed(&K, 2, &[60, 62], way, column, 0), Err(13));
        }
        // the first note, one in the middle, and the last are absent
        assert_eq!(routed(&[60, 62, 64], 1, &[61, 62, 64], way, 1, 0), Err(13));
        assert_eq!(routed(&[60, 62, 64], 1, &[60, 61, 64], way, 1, 0), Err(13));
        assert_eq!(routed(&[60, 62, 64], 1, &[60, 62, 65], way, 1, 0), Err(13));
        // a column with another pitch is not passed over
        assert_eq!(routed(&[60, 61, 62], 1, &[60, 62], way, 1, 0), Err(13));
        // one column is missing, and nothing but rests
        assert_eq!(routed(&[60, 62, 64], 1, &[60, 62, 64, 65], way, 1, 0), Err(13));
        assert_eq!(routed(&[R; 6], 2, &[60, 62], way, 1, 0), Err(13));
    }
    assert_eq!(routed(&[60, 72], 1, &[60, 60], EXACT, 1, 0), Err(13));
    assert_eq!(routed(&[60, 72], 1, &[60, 60], OCTAVE, 1, 0), Ok((vec![1, 1], 0)));
}

/// Into a buffer of so many places, all 77: the number of the refusal and its place, which leaves the buffer alone; or none.
fn refused(cells: &[u8], tracks: usize, theme: &[u8], pair: (u16, i16), places: usize) -> Option<(u8, usize)> {
    let answers = WAYS.map(|way| {
        let mut buffer = vec![77; places];
        let pair = Pair { column: pair.0, shift: pair.1 };
        let answer = route_into(cells, tracks, theme, way, pair, &mut buffer);
        assert!(answer.is_ok() || buffer.iter().all(|place| *place == 77));
        answer.err().map(|Refusal { number, place }| (number, place))
    });
    assert!(answers[0] == answers[1] && answers[1] == answers[2], "{answers:?}");
    answers[0]
}

#[test]
fn the_router_refuses_in_order() {
    // everything is wrong, and is put right bit by bit
    let (bad, right) = ([60, 128, 62], [60, R, 62]);
    assert_eq!(refused(&bad, 17, &[200], (0, 500), 0), Some((1, 0)));
    assert_eq!(refused(&bad, 0, &[200], (0, 500), 0), Some((1, 0)));
    assert_eq!(refused(&bad, 2, &[200], (0, 500), 0), Some((2, 0)));
    assert_eq!(refused(&[], 1, &[200], (0, 500), 0), Some((2, 0)));
    assert_eq!(refused(&[60; 2049], 1, &[200], (0, 500), 0), Some((2, 0)));
    assert_eq!(refused(&bad, 1, &[200], (0, 500), 0), Some((3, 1)));
    assert_eq!(refused(&right, 1, &[200], (0, 500), 0), Some((4, 0)));
    assert_eq!(refused(&right, 1, &[200; 33], (0, 500), 0), Some((4, 0)));
    assert_eq!(refused(&right, 1, &[60, 200], (0, 500), 0), Some((5, 1)));
    assert_eq!(refused(&right, 1, &[60, 62], (0, 500), 0), Some((13, 0)));
    assert_eq!(refused(&right, 1, &[60, 62], (1, 500), 0), Some((13, 0)));
    assert_eq!(refused(&right, 1, &[60, 62], (2, 0), 1), Some((13, 0)));
    assert_eq!(refused(&right, 1, &[60, 62], (3, 0), 1), Some((13, 0)));
    assert_eq!(refused(&right, 1, &[60, 62], (1, 0), 0), Some((14, 0)));
    assert_eq!(refused(&right, 1, &[60, 62], (1, 0), 1), Some((14, 0)));
    assert_eq!(refused(&right, 1, &[60, 62], (1, 0), 2), None);
    assert_eq!(refused(&right, 1, &[60, 62], (1, 0), 3), None);
    // of the longest theme
    assert_eq!(refused(&[60; 32], 1, &[60; 32], (1, 0), 31), Some((14, 0)));
    assert_eq!(refused(&[60; 32], 1, &[60; 32], (1, 0), 32), None);
    assert_eq!(refused(&[60; 32], 1, &[60; 33], (1, 0), 33), Some((4, 0)));
}

#[test]
fn places_behind_the_route_keep_their_contents() {
    let pair = Pair { column: 2, shift: 2 };
    for places in (3..=40).chain([255, 256, 257, 65536, 65537]) {
        let mut buffer: Vec<u8> = (0..=255).cycle().skip(100).take(places).collect();
        let expected = [&[1, 2, 3], &buffer[3..]].concat();
        assert_eq!(route_into(&WANDER, 3, &[60, 62, 64], Way::Exact, pair, &mut buffer), Ok(2));
        assert_eq!(buffer, expected);
    }
}

#[test]
fn in_plain_words() {
    let said = |column, shift| match route(&WANDER, 3, &[60, 62, 64], Way::Exact, Pair { column, shift }) {
        Ok(route) => route.to_string(),
        Err(refusal) => refusal.to_string(),
    };
    assert_eq!(said(2, 2), "tracks 1 2 3, 2 changes");
    assert_eq!(said(2, 3), "13: the pair is not listed");
    let short = route_into(&WANDER, 3, &[60, 62, 64], Way::Exact, Pair { column: 2, shift: 2 }, &mut [0; 2]);
    assert_eq!(short.unwrap_err().to_string(), "14: the route must have a place for each note");
}
