//! The worked examples: pages to try by hand, and the limits.

use finder::{
    pairs, plain_page, plain_pairs, prepare, quick_page, AnyWay, Bookmark, Page, Pair, Refusal, Way, TABLE_LEN,
};

/// Five columns of two tracks.
const K: [u8; 10] = [60, 67, 62, 69, 64, 255, 65, 72, 255, 67];

/// A rest.
const R: u8 = 255;

/// One track that rests before its first pitch, between two of them and behind its last.
const GAPS: [u8; 7] = [R, 60, R, R, 62, 64, R];

fn sets_of(cells: &[u8], tracks: usize) -> Vec<u16> {
    let mut sets = vec![7; cells.len() / tracks - 1];
    prepare(cells, tracks, &mut sets).unwrap();
    sets
}

/// A page, with its pairs.
type Turned = (Vec<(u16, i16)>, Page);

/// The pages of a list from its first bookmark on, each in buffers of so much room.
fn pages(
    first: Bookmark,
    room: usize,
    call: impl Fn(Bookmark, &mut [u16], &mut [i16]) -> Result<Page, Refusal>,
) -> Vec<Turned> {
    let mut at = first;
    let mut turned = Vec::new();
    loop {
        let (mut columns, mut shifts) = (vec![9999; room], vec![9999; room]);
        let page = call(at, &mut columns, &mut shifts).unwrap();
        assert!(columns[page.written..].iter().all(|c| *c == 9999) && shifts[page.written..].iter().all(|c| *c == 9999));
        turned.push((columns.into_iter().zip(shifts).take(page.written).collect(), page));
        at = page.next;
        if page.finished {
            return turned;
        }
    }
}

fn plain_pages(cells: &[u8], tracks: usize, theme: &[u8], way: impl Into<AnyWay>, room: usize) -> Vec<Turned> {
    let way = way.into();
    pages(way.first(), room, |at, columns, shifts| plain_page(cells, tracks, theme, way, at, columns, shifts))
}

fn quick_pages(cells: &[u8], tracks: usize, theme: &[u8], way: Way, room: usize) -> Vec<Turned> {
    let sets = sets_of(cells, tracks);
    pages(way.first(), room, |at, columns, shifts| {
        quick_page(cells, tracks, theme, way, at, &sets, &mut [5; TABLE_LEN], columns, shifts)
    })
}

/// The whole list, which both searches give, with the looks of each.
fn list(cells: &[u8], tracks: usize, theme: &[u8], way: Way) -> (Vec<(u16, i16)>, u32, u32) {
    let mut plain = plain_pages(cells, tracks, theme, way, 1000);
    let mut quick = quick_pages(cells, tracks, theme, way, 1000);
    assert_eq!((plain.len(), quick.len()), (1, 1));
    let ((found, p), (also, q)) = (plain.remove(0), quick.remove(0));
    assert_eq!(found, also);
    let all: Vec<_> = pairs(cells, tracks, theme, way).unwrap().map(|p| (p.column, p.shift)).collect();
    assert_eq!(found, all);
    (found, p.looks, q.looks)
}

/// The whole list of the tune in its own key, which takes no looks.
fn written_list(cells: &[u8], tracks: usize, theme: &[u8]) -> Vec<(u16, i16)> {
    let mut turned = plain_pages(cells, tracks, theme, AnyWay::Written, 1000);
    assert_eq!((turned.len(), turned[0].1.looks), (1, 0));
    let all: Vec<_> = plain_pairs(cells, tracks, theme, AnyWay::Written).unwrap().map(|p| (p.column, p.shift)).collect();
    assert_eq!(turned[0].0, all);
    turned.remove(0).0
}

fn page(written: usize, column: u16, shift: i16, finished: bool, looks: u32) -> Page {
    Page { written, next: Bookmark { column, shift }, finished, looks }
}

#[test]
fn sets_of_k() {
    assert_eq!(sets_of(&K, 2), [3451, 3963, 3837, 3963]);
}

#[test]
fn lists_of_k() {
    assert_eq!(list(&K, 2, &[60, 62, 64], Way::Exact), (vec![(1, 0)], 8, 4));
    assert_eq!(list(&K, 2, &[67, 62], Way::Exact), (vec![(1, 0), (2, 2), (4, 5)], 7, 6));
    assert_eq!(list(&K, 2, &[60, 67, 69], Way::Exact).0, []);
    assert_eq!(list(&K, 2, &[60, 67, 69], Way::Octave).0, [(1, 7)]);
    let (none, plain, quick) = list(&K, 2, &[60, 69, 71], Way::Octave);
    assert_eq!((none, plain, quick), (vec![], 6, 3));
}

#[test]
fn pages_of_k() {
    let turned = plain_pages(&K, 2, &[67, 62], Way::Exact, 2);
    assert_eq!(turned, [(vec![(1, 0), (2, 2)], page(2, 2, 3, false, 4)), (vec![(4, 5)], page(1, 6, -127, true, 3))]);
    let turned = plain_pages(&K, 2, &[67, 62], Way::Exact, 3);
    assert_eq!((turned.len(), turned[0].0.len()), (2, 3));
    assert_eq!((turned[0].1.next, turned[0].1.finished), (Bookmark { column: 4, shift: 6 }, false));
    assert_eq!((turned[1].0.len(), turned[1].1.finished), (0, true));
}

#[test]
fn lists_of_k_in_its_own_key() {
    assert_eq!(written_list(&K, 2, &[60, 62, 64]), [(1, 0)]);
    assert_eq!(written_list(&K, 2, &[67, 62]), [(1, 0)]);
    assert_eq!(written_list(&K, 2, &[62, 64, 65]), [(2, 0)]);
    // these stand in K only when they are moved
    assert_eq!(written_list(&K, 2, &[61, 63, 65]), []);
    assert_eq!(written_list(&K, 2, &[60, 67, 69]), []);
}

#[test]
fn pages_of_k_in_its_own_key() {
    let turned = plain_pages(&K, 2, &[67, 62], AnyWay::Written, 1);
    assert_eq!(turned, [(vec![(1, 0)], page(1, 1, 1, false, 0)), (vec![], page(0, 6, 0, true, 0))]);
    let turned = plain_pages(&K, 2, &[67, 62], AnyWay::Written, 2);
    assert_eq!(turned, [(vec![(1, 0)], page(1, 6, 0, true, 0))]);
}

#[test]
fn bookmarks_of_a_tune_in_its_own_key() {
    let turn = |column, shift| {
        let (mut columns, mut shifts) = ([9999; 2], [9999; 2]);
        let bookmark = Bookmark { column, shift };
        let answer = plain_page(&K, 2, &[67, 62], AnyWay::Written, bookmark, &mut columns, &mut shifts);
        (answer, columns[0])
    };
    let refused = (Err(Refusal { number: 10, place: 0 }), 9999);
    assert_eq!(turn(1, -1), refused);
    assert_eq!(turn(1, 0), (Ok(page(1, 6, 0, true, 0)), 1));
    assert_eq!(turn(1, 1), (Ok(page(0, 6, 0, true, 0)), 9999));
    assert_eq!(turn(1, 2), refused);
    assert_eq!(turn(0, 0), refused);
    assert_eq!(turn(6, 1), (Ok(page(0, 6, 0, true, 0)), 9999));
    assert_eq!(turn(7, 0), refused);
}

#[test]
fn one_track() {
    assert_eq!(list(&[0, 0], 1, &[127, 127], Way::Exact).0, [(1, -127)]);
    assert_eq!(list(&[127, 127], 1, &[0, 0], Way::Exact).0, [(1, 127)]);
    assert_eq!(list(&[120, 0], 1, &[0, 12], Way::Exact).0, []);
    assert_eq!(list(&[120, 0], 1, &[0, 12], Way::Octave).0, [(1, 0)]);
    assert_eq!(written_list(&[0, 127, 0, 127], 1, &[0, 127]), [(1, 0), (3, 0)]);
    assert_eq!(written_list(&[60; 40], 1, &[60; 32]), (1..=9).map(|j| (j, 0)).collect::<Vec<_>>());
}

#[test]
fn columns_without_a_pitch_are_passed_over() {
    assert_eq!(sets_of(&[60, R, 62], 1), [4091, 4095]);
    for way in [Way::Exact, Way::Octave] {
        assert_eq!(list(&[60, R, 62], 1, &[60, 62], way), (vec![(1, 0)], 1, 1));
    }
    assert_eq!(written_list(&[60, R, 62], 1, &[60, 62]), [(1, 0)]);

    assert_eq!(sets_of(&GAPS, 1), [4095, 4091, 4095, 4095, 4091, 4095]);
    for way in [Way::Exact, Way::Octave] {
        assert_eq!(list(&GAPS, 1, &[60, 62, 64], way), (vec![(2, 0)], 2, 2));
        // column 6 is no start: no pitch follows
        assert_eq!(list(&GAPS, 1, &[60, 62], way), (vec![(2, 0), (5, 2)], 2, 2));
        // more notes than columns with a pitch, though not more than columns
        assert_eq!(list(&GAPS, 1, &[60, 62, 64, 65], way), (vec![], 0, 0));
    }
    assert_eq!(written_list(&GAPS, 1, &[60, 62, 64]), [(2, 0)]);
    assert_eq!(written_list(&GAPS, 1, &[62, 64]), [(5, 0)]);

    // a column of two tracks is passed over only where both rest
    assert_eq!(list(&[60, R, R, R, 67, R, R, 62], 2, &[60, 67, 62], Way::Exact).0, [(1, 0)]);
    assert_eq!(list(&[60, R, R, R, 67, R, R, 62], 2, &[60, 62], Way::Exact).0, []);
    assert_eq!(sets_of(&[60, R, R, R, 67, R, R, 62], 2), [4095 - 128, 4095, 4095 - 128]);

    // nothing but rests
    assert_eq!(sets_of(&[R; 4], 1), [4095; 3]);
    assert_eq!(list(&[R; 4], 1, &[60, 62], Way::Exact), (vec![], 0, 0));
    assert_eq!(written_list(&[R; 4], 1, &[60, 62]), []);
}

#[test]
fn pages_of_gaps() {
    let turned = plain_pages(&GAPS, 1, &[60, 62], Way::Exact, 1);
    let expected = [
        (vec![(2, 0)], page(1, 2, 1, false, 1)),
        (vec![(5, 2)], page(1, 5, 3, false, 1)),
        (vec![], page(0, 8, -127, true, 0)),
    ];
    assert_eq!(turned, expected);
    assert_eq!(quick_pages(&GAPS, 1, &[60, 62], Way::Exact, 1), expected);
    let turned = plain_pages(&GAPS, 1, &[60, 62, 64], AnyWay::Written, 1);
    assert_eq!(turned, [(vec![(2, 0)], page(1, 2, 1, false, 0)), (vec![], page(0, 8, 0, true, 0))]);
}

#[test]
fn a_bookmark_in_a_column_without_a_pitch() {
    let turn = |way: AnyWay, column, shift| {
        let (mut columns, mut shifts) = ([9999; 2], [9999; 2]);
        let page = plain_page(&GAPS, 1, &[60, 62], way, Bookmark { column, shift }, &mut columns, &mut shifts).unwrap();
        (page.written, columns[0], shifts[0])
    };
    // its shift says nothing of the next column with a pitch, where every shift counts
    assert_eq!(turn(Way::Exact.into(), 1, 128), (2, 2, 0));
    assert_eq!(turn(Way::Exact.into(), 4, 128), (1, 5, 2));
    assert_eq!(turn(Way::Octave.into(), 3, 12), (1, 5, 2));
    assert_eq!(turn(AnyWay::Written, 1, 1), (1, 2, 0));
    // in a column with one it does
    assert_eq!(turn(Way::Exact.into(), 2, 1), (1, 5, 2));
    assert_eq!(turn(AnyWay::Written, 2, 1), (0, 9999, 9999));
    assert_eq!(turn(Way::Exact.into(), 7, -127), (0, 9999, 9999));
}

#[test]
fn sets_of_columns_without_a_pitch() {
    let turn = |cells: &[u8], theme: &[u8], sets: &[u16]| {
        let (mut columns, mut shifts) = ([9999; 2], [9999; 2]);
        let first = Way::Exact.first();
        let page =
            quick_page(cells, 1, theme, Way::Exact, first, sets, &mut [5; TABLE_LEN], &mut columns, &mut shifts).unwrap();
        (page.written, columns[0], page.looks)
    };
    // they are passed over, whatever they hold
    for set in [0, 4091, 4095] {
        assert_eq!(turn(&[60, R, 62], &[60, 62], &[4091, set]), (1, 1, 1));
        assert_eq!(turn(&[60, R, 62], &[60, 62], &[4095, set]), (0, 9999, 0));
        assert_eq!(turn(&GAPS, &[60, 62, 64], &[set, 4091, set, set, 4091, set]), (1, 2, 2));
    }
    // a set of all intervals at the last pitch, behind which there are only rests: too few columns are left for a start
    assert_eq!(turn(&[60, R, R], &[60, 62], &[0, 0]), (0, 9999, 0));
}

#[test]
fn limits() {
    let refused = |cells: &[u8], tracks, theme: &[u8]| {
        pairs(cells, tracks, theme, Way::Exact).err().map(|r| (r.number, r.place))
    };
    let long = vec![60; 2048 * 16];
    assert_eq!(refused(&K, 2, &[60]), Some((4, 0)));
    assert_eq!(refused(&K, 2, &[60; 33]), Some((4, 0)));
    assert_eq!(refused(&K, 2, &[60; 2]), None);
    assert_eq!(refused(&K, 2, &[60; 32]), None);
    assert_eq!(refused(&long, 16, &[60; 2]), None);
    assert_eq!(refused(&long[..2048], 1, &[60; 2]), None);
    assert_eq!(refused(&long[..2049], 1, &[60; 2]), Some((2, 0)));
    assert_eq!(refused(&long, 17, &[60; 2]), Some((1, 0)));
    assert_eq!(refused(&long, 0, &[60; 2]), Some((1, 0)));
    assert_eq!(refused(&[], 1, &[60; 2]), Some((2, 0)));
    assert_eq!(refused(&K[..9], 2, &[60; 2]), Some((2, 0)));
    for (cell, answer) in [(127, None), (255, None), (128, Some((3, 1))), (254, Some((3, 1)))] {
        assert_eq!(refused(&[60, cell, 60], 1, &[60; 2]), answer);
    }
    assert_eq!(refused(&K, 2, &[60, 128]), Some((5, 1)));
    // the last cell of the longest score: the highest place that a refusal names
    let mut bad = long;
    bad[32767] = 200;
    assert_eq!(refused(&bad, 16, &[60; 2]), Some((3, 32767)));
}

#[test]
fn iterator_goes_on_over_pages() {
    // 2,047 pairs: 31 full pages and one of 63
    let cells = [60; 2048];
    let mut all = pairs(&cells, 1, &[0, 0], Way::Exact).unwrap();
    for column in 1..=2047 {
        assert_eq!(all.next(), Some(Pair { column, shift: 60 }));
    }
    assert_eq!((all.next(), all.next(), all.looks()), (None, None, 2047));
    let mut all = plain_pairs(&cells, 1, &[60, 60], AnyWay::Written).unwrap();
    for column in 1..=2047 {
        assert_eq!(all.next(), Some(Pair { column, shift: 0 }));
    }
    assert_eq!((all.next(), all.next(), all.looks()), (None, None, 0));
}

#[test]
fn refusals_say_why() {
    let said = |number, place| Refusal { number, place }.to_string();
    assert_eq!(said(3, 12), "3: cell 12 is neither a pitch nor a rest");
    assert_eq!(said(12, 0), "12: the summary is not that of the sets");
    assert_eq!(said(19, 0), "19: the score has no such column");
}
