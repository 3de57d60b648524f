//! Worked examples of why a pair is listed or not, what the sets make of its column, and the words for both.

mod examples;

use examples::{having, GAPS, GAPS_SETS, K, K_SETS, R};
use finder::{explain, Explanation, Pair, Prepared, Reason, Refusal, Sifted, Way};

const WAYS: [Way; 2] = [Way::Exact, Way::Octave];

/// One track in which every second column has no pitch.
const STEPS: [u8; 5] = [60, R, 62, R, 64];
const STEPS_SETS: [u16; 4] = [4091, 4095, 4091, 4095];

/// A score with its tracks, and a theme.
#[derive(Clone, Copy)]
struct Asked<'a> {
    cells: &'a [u8],
    tracks: usize,
    theme: &'a [u8],
    way: Way,
}

impl Asked<'_> {
    /// The explanation by these sets.
    fn by(self, sets: &[u16], column: u16, shift: i16) -> (Reason, Option<Sifted>) {
        let Explanation { reason, sifted } =
            explain(self.cells, self.tracks, self.theme, self.way, Pair { column, shift }, sets).unwrap();
        (reason, sifted)
    }

    /// The explanation by the score's own sets.
    fn own(self, column: u16, shift: i16) -> (Reason, Option<Sifted>) {
        let prepared = Prepared::new(self.cells, self.tracks).unwrap();
        let pair = Pair { column, shift };
        let explanation = prepared.explain(self.cells, self.tracks, self.theme, self.way, pair).unwrap();
        assert_eq!(self.by(prepared.sets(), column, shift), (explanation.reason.clone(), explanation.sifted));
        (explanation.reason, explanation.sifted)
    }

    fn reason(self, column: u16, shift: i16) -> Reason {
        self.own(column, shift).0
    }
}

fn k(theme: &[u8], way: Way) -> Asked<'_> {
    Asked { cells: &K, tracks: 2, theme, way }
}

fn one_track<'a>(cells: &'a [u8], theme: &'a [u8], way: Way) -> Asked<'a> {
    Asked { cells, tracks: 1, theme, way }
}

fn listed(tracks: &[u8]) -> Reason {
    Reason::Listed { tracks: tracks.to_vec() }
}

fn kept(column: u16) -> Option<Sifted> {
    Some(Sifted::Kept { column })
}

fn dismissed(column: u16, interval: u8, size: u8) -> Option<Sifted> {
    Some(Sifted::Dismissed { column, interval, size })
}

#[test]
fn pairs_of_k() {
    let two = k(&[67, 62], Way::Exact);
    assert_eq!(two.own(1, 0), (listed(&[2, 1]), kept(1)));
    assert_eq!(two.own(2, 2), (listed(&[2, 1]), kept(2)));
    assert_eq!(two.own(4, 5), (listed(&[2, 2]), kept(4)));
    // 64 is there, 59 is not; and set 3 has only 1 and 8
    assert_eq!(two.own(3, -3), (Reason::Absent { note: 2, column: 4 }, dismissed(3, 1, 7)));
    // the first note can fail, at a column that is kept
    assert_eq!(two.own(1, 1), (Reason::Absent { note: 1, column: 1 }, kept(1)));
    assert_eq!(two.own(5, 0), (Reason::TooFew { column: 5 }, None));

    let three = k(&[60, 62, 64], Way::Exact);
    assert_eq!(three.own(1, 0), (listed(&[1, 1, 1]), kept(1)));
    assert_eq!(three.own(2, 2), (Reason::Absent { note: 3, column: 4 }, dismissed(2, 2, 2)));
    assert_eq!(three.own(3, 4), (Reason::Absent { note: 2, column: 4 }, dismissed(3, 1, 2)));
    assert_eq!(three.own(4, 0), (Reason::TooFew { column: 4 }, None));

    let turned = [60, 67, 69];
    assert_eq!(k(&turned, Way::Octave).own(1, 7), (listed(&[2, 1, 1]), kept(1)));
    assert_eq!(k(&turned, Way::Exact).own(1, 7), (Reason::Absent { note: 2, column: 2 }, kept(1)));
}

#[test]
fn the_lowest_track_that_holds_a_note() {
    // both tracks have it; only with octaves ignored; a rest is no pitch, whatever its number
    let cells = [60, 60, 74, 62, R, 63, 64, R];
    let asked = |theme, way| Asked { cells: &cells, tracks: 2, theme, way };
    assert_eq!(asked(&[60, 62, 63, 64], Way::Exact).reason(1, 0), listed(&[1, 2, 2, 1]));
    assert_eq!(asked(&[60, 62, 63, 64], Way::Octave).reason(1, 0), listed(&[1, 1, 2, 1]));
    assert_eq!(asked(&[0, 2, 3, 4], Way::Octave).reason(1, 0), listed(&[1, 1, 2, 1]));
    // all sixteen tracks
    let mut wide = vec![R; 32];
    (wide[15], wide[16], wide[31]) = (60, 61, 61);
    let asked = Asked { cells: &wide, tracks: 16, theme: &[60, 61], way: Way::Exact };
    assert_eq!(asked.reason(1, 0), listed(&[16, 1]));
}

#[test]
fn columns_without_a_pitch() {
    for way in WAYS {
        let two = one_track(&STEPS, &[60, 62], way);
        assert_eq!(two.own(0, 0), (Reason::NoColumn, None));
        assert_eq!(two.own(1, 0), (listed(&[1, 1]), kept(1)));
        // two columns with a pitch follow, and yet none of them is this one
        assert_eq!(two.own(2, 0), (Reason::Empty { column: 2 }, None));
        assert_eq!(two.own(3, 2), (listed(&[1, 1]), kept(3)));
        // it has no pitch either, but that comes after too few
        assert_eq!(two.own(4, 4), (Reason::TooFew { column: 4 }, None));
        assert_eq!(two.own(5, 4), (Reason::TooFew { column: 5 }, None));
        for column in [6, 7, 2048, 2049, u16::MAX] {
            assert_eq!(two.own(column, 0), (Reason::TooFew { column }, None));
        }

        let three = one_track(&GAPS, &[60, 62, 64], way);
        assert_eq!(three.own(1, 0), (Reason::Empty { column: 1 }, None));
        assert_eq!(three.own(2, 0), (listed(&[1, 1, 1]), kept(2)));
        assert_eq!(three.own(3, 0), (Reason::TooFew { column: 3 }, None));
        // the column of a note is that in the score
        let other = one_track(&GAPS, &[60, 62, 65], way);
        assert_eq!(other.own(2, 0), (Reason::Absent { note: 3, column: 6 }, dismissed(2, 2, 3)));
        let other = one_track(&GAPS, &[60, 61, 64], way);
        assert_eq!(other.own(2, 0), (Reason::Absent { note: 2, column: 5 }, dismissed(2, 1, 1)));
        // more notes than columns with a pitch
        assert_eq!(one_track(&GAPS, &[60, 62, 64, 66], way).own(2, 0), (Reason::TooFew { column: 2 }, None));
        // nothing but rests, and one column
        assert_eq!(one_track(&[R; 4], &[60, 60], way).own(1, 0), (Reason::TooFew { column: 1 }, None));
        assert_eq!(one_track(&[60], &[60, 60], way).own(1, 0), (Reason::TooFew { column: 1 }, None));
    }
}

#[test]
fn shifts_of_a_way() {
    let no_shift = |way, shift| Reason::NoShift { way, shift };
    // the ends of exact
    let lowest = one_track(&[0, 0], &[127, 127], Way::Exact);
    assert_eq!(lowest.own(1, -127), (listed(&[1, 1]), kept(1)));
    assert_eq!(lowest.own(1, -128), (no_shift(Way::Exact, -128), kept(1)));
    let highest = one_track(&[127, 127], &[0, 0], Way::Exact);
    assert_eq!(highest.own(1, 127), (listed(&[1, 1]), kept(1)));
    // a bookmark may have it, a pair may not
    assert_eq!(highest.own(1, 128), (no_shift(Way::Exact, 128), kept(1)));
    // and of octave
    let octave = one_track(&[71, 71], &[60, 60], Way::Octave);
    assert_eq!(octave.own(1, 11), (listed(&[1, 1]), kept(1)));
    assert_eq!(octave.own(1, 12), (no_shift(Way::Octave, 12), kept(1)));
    assert_eq!(octave.own(1, -1), (no_shift(Way::Octave, -1), kept(1)));
    assert_eq!(one_track(&[60, 72], &[60, 60], Way::Octave).own(1, 0), (listed(&[1, 1]), kept(1)));
    for shift in [i16::MIN, -256, 256, i16::MAX] {
        assert_eq!(lowest.own(1, shift), (no_shift(Way::Exact, shift), kept(1)));
        assert_eq!(octave.own(1, shift), (no_shift(Way::Octave, shift), kept(1)));
    }
}

#[test]
fn the_shift_comes_before_the_column() {
    let steps = one_track(&STEPS, &[60, 62], Way::Exact);
    let none = Reason::NoShift { way: Way::Exact, shift: 500 };
    for column in [0, 2, 4, 5, 6, u16::MAX] {
        assert_eq!(steps.own(column, 500), (none.clone(), None));
    }
    // at a column that passes by itself the sets are asked, whatever the shift
    assert_eq!(steps.own(1, 500), (none.clone(), kept(1)));
    assert_eq!(steps.by(&[4095; 4], 3, 500), (none, dismissed(3, 1, 2)));
}

#[test]
fn notes_outside_0_to_127() {
    let asked = one_track(&[120, 0], &[0, 12], Way::Exact);
    assert_eq!(asked.own(1, 120), (Reason::Outside { note: 2 }, kept(1)));
    // the first note that fails is told, whatever is wrong with the next
    assert_eq!(asked.own(1, 119), (Reason::Absent { note: 1, column: 1 }, kept(1)));
    assert_eq!(asked.own(1, -1), (Reason::Outside { note: 1 }, kept(1)));
    // 115 and 127 are pitches
    assert_eq!(asked.own(1, 115), (Reason::Absent { note: 1, column: 1 }, kept(1)));
    assert_eq!(one_track(&[0, 0], &[1, 0], Way::Exact).reason(1, -1), Reason::Outside { note: 2 });
    assert_eq!(one_track(&[127, 60], &[126, 127], Way::Exact).reason(1, 1), Reason::Outside { note: 2 });
    assert_eq!(one_track(&[127, 60], &[127, 127], Way::Exact).reason(1, 1), Reason::Outside { note: 1 });
    // octave knows no such note
    assert_eq!(one_track(&[120, 0], &[0, 12], Way::Octave).own(1, 0), (listed(&[1, 1]), kept(1)));
    let high = one_track(&[6, 7], &[127, 127], Way::Octave);
    assert_eq!(high.own(1, 11), (Reason::Absent { note: 2, column: 2 }, dismissed(1, 1, 0)));
}

#[test]
fn the_longest_themes() {
    for way in WAYS {
        let asked = one_track(&[60; 40], &[60; 32], way);
        assert_eq!(asked.own(9, 0), (listed(&[1; 32]), kept(9)));
        assert_eq!(asked.own(10, 0), (Reason::TooFew { column: 10 }, None));
        let mut theme = [60; 32];
        theme[31] = 61;
        let asked = one_track(&[60; 40], &theme, way);
        assert_eq!(asked.own(9, 0), (Reason::Absent { note: 32, column: 40 }, dismissed(9, 31, 1)));
        // the last columns of the longest score
        let long = one_track(&[60; 2048], &[60, 60], way);
        assert_eq!(long.own(2047, 0), (listed(&[1, 1]), kept(2047)));
        assert_eq!(long.own(2048, 0), (Reason::TooFew { column: 2048 }, None));
    }
}

#[test]
fn sets_of_another_score() {
    for way in WAYS {
        let steps = one_track(&STEPS, &[60, 62, 64], way);
        assert_eq!(steps.by(&STEPS_SETS, 1, 0), (listed(&[1, 1, 1]), kept(1)));
        // a listed pair is dismissed
        assert_eq!(steps.by(&[4095; 4], 1, 0), (listed(&[1, 1, 1]), dismissed(1, 1, 2)));
        // the sets of columns 1 and 3 are asked, those of columns without a pitch are not
        for any in [0, 4091, 4095] {
            assert_eq!(steps.by(&[4091, any, 4091, any], 1, 0).1, kept(1));
            assert_eq!(steps.by(&[4095, any, 4091, any], 1, 0).1, dismissed(1, 1, 2));
            assert_eq!(steps.by(&[4091, any, 4095, any], 1, 0).1, dismissed(1, 2, 2));
            assert_eq!(steps.by(&[4095, any, 4095, any], 1, 0).1, dismissed(1, 1, 2));
        }
        // a set that lacks only the interval, and one that has only it
        assert_eq!(steps.by(&[4, 0, 0, 0], 1, 0).1, dismissed(1, 1, 2));
        assert_eq!(steps.by(&[4095 - 4, 0, 4095 - 4, 0], 1, 0).1, kept(1));
        // what is impossible is kept
        let wrong = one_track(&STEPS, &[60, 63], way);
        assert_eq!(wrong.by(&STEPS_SETS, 1, 0), (Reason::Absent { note: 2, column: 3 }, dismissed(1, 1, 3)));
        assert_eq!(wrong.by(&[0; 4], 1, 0), (Reason::Absent { note: 2, column: 3 }, kept(1)));
        // but no set makes room where there is none
        assert_eq!(wrong.by(&[0; 4], 5, 0), (Reason::TooFew { column: 5 }, None));
        assert_eq!(wrong.by(&[0; 4], 2, 0), (Reason::Empty { column: 2 }, None));
    }
    // K by other sets
    let two = k(&[67, 62], Way::Exact);
    assert_eq!(two.by(&[4095, 4095, 4095, having(&[7])], 4, 5), (listed(&[2, 2]), kept(4)));
    assert_eq!(two.by(&[having(&[7]), 4095, 4095, 4095], 4, 5), (listed(&[2, 2]), dismissed(4, 1, 7)));
    assert_eq!(two.by(&K_SETS, 4, 5), (listed(&[2, 2]), kept(4)));
    assert_eq!(one_track(&GAPS, &[60, 62], Way::Exact).by(&GAPS_SETS, 5, 2), (listed(&[1, 1]), kept(5)));
}

#[test]
fn sizes_of_intervals() {
    let size = |theme: &[u8]| one_track(&[60; 3], theme, Way::Exact).by(&[4095; 2], 1, 0).1;
    let rising = [([60, 60], 0), ([60, 61], 1), ([60, 72], 0), ([0, 127], 7)];
    let falling = [([61, 60], 11), ([62, 60], 10), ([127, 0], 5)];
    for (theme, of) in rising.into_iter().chain(falling) {
        assert_eq!(size(&theme), dismissed(1, 1, of));
        // a set that has it alone keeps the column
        let has = [having(&[of.into()]), 4095];
        assert_eq!(one_track(&[60; 3], &theme, Way::Exact).by(&has, 1, 0).1, kept(1));
    }
}

#[test]
fn the_explainer_refuses_in_order() {
    // everything is wrong, and is put right bit by bit; what is asked about is no matter
    let bad_cells = [60, 128, 62];
    for (column, shift) in [(1, 0), (0, 500), (u16::MAX, i16::MIN)] {
        let ask = |cells: &[u8], tracks, theme: &[u8], sets: &[u16]| {
            let answers = WAYS.map(|way| explain(cells, tracks, theme, way, Pair { column, shift }, sets).map(|_| ()));
            assert_eq!(answers[0], answers[1]);
            answers[0].map_err(|Refusal { number, place }| (number, place))
        };
        assert_eq!(ask(&bad_cells, 17, &[200], &[4096; 3]), Err((1, 0)));
        assert_eq!(ask(&bad_cells, 0, &[200], &[4096; 3]), Err((1, 0)));
        assert_eq!(ask(&bad_cells, 2, &[200], &[4096; 3]), Err((2, 0)));
        assert_eq!(ask(&[], 1, &[200], &[4096; 3]), Err((2, 0)));
        assert_eq!(ask(&[60; 2049], 1, &[200], &[4096; 3]), Err((2, 0)));
        assert_eq!(ask(&bad_cells, 1, &[200], &[4096; 3]), Err((3, 1)));
        assert_eq!(ask(&[60, R, 62], 1, &[200], &[4096; 3]), Err((4, 0)));
        assert_eq!(ask(&[60, R, 62], 1, &[200; 33], &[4096; 3]), Err((4, 0)));
        assert_eq!(ask(&[60, R, 62], 1, &[60, 200], &[4096; 3]), Err((5, 1)));
        assert_eq!(ask(&[60, R, 62], 1, &[60, 62], &[4096; 3]), Err((6, 0)));
        assert_eq!(ask(&[60, R, 62], 1, &[60, 62], &[4096]), Err((6, 0)));
        // also the set of a column without a pitch
        assert_eq!(ask(&[60, R, 62], 1, &[60, 62], &[4091, 4096]), Err((7, 1)));
        assert_eq!(ask(&[60, R, 62], 1, &[60, 62], &[65535, 4096]), Err((7, 0)));
        assert_eq!(ask(&[60, R, 62], 1, &[60, 62], &[4091, 4095]), Ok(()));
    }
    let prepared = Prepared::new(&K, 2).unwrap();
    let pair = Pair { column: 1, shift: 0 };
    let refused = |number| Err(Refusal { number, place: 0 });
    assert_eq!(prepared.explain(&K[..8], 2, &[67, 62], Way::Exact, pair), refused(6));
    assert_eq!(prepared.explain(&K, 2, &[67], Way::Exact, pair), refused(4));
}

#[test]
fn in_plain_words() {
    let said = |asked: Asked, column, shift| {
        let prepared = Prepared::new(asked.cells, asked.tracks).unwrap();
        prepared.explain(asked.cells, asked.tracks, asked.theme, asked.way, Pair { column, shift }).unwrap().to_string()
    };
    let two = k(&[67, 62], Way::Exact);
    assert_eq!(said(two, 4, 5), "listed: tracks 2 2\nthe sets keep column 4");
    assert_eq!(said(two, 4, 130), "shift 130 is none of exact's, which are -127 to 127\nthe sets keep column 4");
    assert_eq!(said(k(&[67, 62], Way::Octave), 9, -1), "shift -1 is none of octave's, which are 0 to 11");
    assert_eq!(said(two, 0, 0), "column 0 is no column");
    assert_eq!(said(two, 5, 0), "from column 5 on there are too few columns with a pitch");
    let steps = one_track(&STEPS, &[60, 62], Way::Exact);
    assert_eq!(said(steps, 2, 0), "column 2 holds no pitch");
    assert_eq!(said(steps, 3, 67), "note 1 is absent from column 3\nthe sets keep column 3");
    assert_eq!(said(steps, 3, 68), "note 1 falls outside 0 to 127\nthe sets keep column 3");
    let other = one_track(&STEPS, &[60, 62, 63], Way::Octave);
    let expected = "note 3 is absent from column 5\nthe sets dismiss column 1 by interval 2, of 1 semitone";
    assert_eq!(said(other, 1, 0), expected);
    let expected = "note 2 is absent from column 4\nthe sets dismiss column 3 by interval 1, of 7 semitones";
    assert_eq!(said(two, 3, -3), expected);
    let repeated = Sifted::Dismissed { column: 2, interval: 1, size: 0 };
    assert_eq!(repeated.to_string(), "the sets dismiss column 2 by interval 1, of 0 semitones");
    assert_eq!((Way::Exact.to_string(), Way::Octave.to_string()), ("exact".into(), "octave".into()));
}
