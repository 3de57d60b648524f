//! The example `staff` as it is run: the pictures that it draws, and the code with which it ends.

mod program;

use program::{example, file_with, hits_of_examples, Ended};

fn run(args: &[&str]) -> Ended {
    program::run("staff", args)
}

/// The picture of a pair.
fn drawn(file: &str, column: &str, shift: &str) -> String {
    let (code, printed, said) = run(&[file, column, shift]);
    assert_eq!((code, said.as_str()), (Some(0), ""));
    printed
}

/// The tune that wanders, as the README has it.
const WANDERS: &str = "\
column     1    2    3    4    5
track 1   59   62*   .   65   72
track 2   55    .   64*   .   60
track 3    .   50   48   66*   .
column 2, shift 2: tracks 1 2 3, 2 changes
";

#[test]
fn a_tune_that_wanders() {
    assert_eq!(drawn(&example("wander.txt"), "2", "2"), WANDERS);
    let readme = include_str!("../../../README.md");
    let shown: String = WANDERS.lines().map(|line| format!("    {line}\n")).collect();
    assert!(readme.contains(&format!("    $ bin/staff examples/wander.txt 2 2\n{shown}")));
}

#[test]
fn over_columns_of_rests() {
    // from the first column to the last, and no column behind
    let path = file_with("rests.txt", "theme\toctave\t60\t62\nchord\t-\t72\nchord\t-\t-\nchord\t14\t62\n");
    let expected = "\
column     1    2    3
track 1    .    .   14
track 2   72*   .   62*
column 1, shift 0: tracks 2 2, 0 changes
";
    assert_eq!(drawn(&path, "1", "0"), expected);
    // as it is written: one change, and the column behind is of rests
    let chords = "chord\t1\t2\nchord\t-\t60\nchord\t62\t-\nchord\t-\t-\nchord\t3\t4\n";
    let path = file_with("gap_behind.txt", &format!("theme\twritten\t60\t62\n{chords}"));
    let expected = "\
column     1    2    3    4
track 1    1    .   62*   .
track 2    2   60*   .    .
column 2, shift 0: tracks 2 1, 1 change
";
    assert_eq!(drawn(&path, "2", "0"), expected);
    let said = format!("staff: {path}: 13: the pair is not listed\n");
    assert_eq!(run(&[&path, "2", "1"]), (Some(2), String::new(), said));
}

#[test]
fn a_long_tune_goes_on_below() {
    let chords: String = (0..2048).map(|k| format!("chord{}\t{}\n", "\t-".repeat(15), k % 128)).collect();
    let notes: String = (96..128).map(|note| format!("\t{note}")).collect();
    let path = file_with("long.txt", &format!("theme\texact{notes}\n{chords}"));
    let picture = drawn(&path, "2017", "0");
    let lines: Vec<&str> = picture.lines().collect();
    // 33 columns, the first of them in front of the tune: twice 14 and 5, each of 17 lines
    assert_eq!(lines.len(), 3 * 17 + 2 + 1);
    assert!(lines[..lines.len() - 1].iter().all(|line| line.len() < 80));
    assert_eq!(lines[0], format!("column  {}", (2016..2030).map(|k| k.to_string()).collect::<Vec<_>>().join(" ")));
    assert_eq!((lines[16].starts_with("track 16  95   96*  97* "), lines[17]), (true, ""));
    assert_eq!(lines[35..=36], ["", "column  2044 2045 2046 2047 2048"]);
    assert_eq!(lines[52], "track 16 123* 124* 125* 126* 127*");
    assert_eq!(lines[53], format!("column 2017, shift 0: tracks{}, 0 changes", " 16".repeat(32)));
}

#[test]
fn every_hit_of_the_examples_is_drawn() {
    for (input, column, shift) in hits_of_examples() {
        let picture = drawn(&input, &column, &shift);
        let last = picture.lines().last().unwrap();
        let tracks = last.split_once(": tracks ").unwrap().1.split_once(", ").unwrap().0;
        assert!(last.starts_with(&format!("column {column}, shift {shift}: ")), "{picture}");
        // a star for each note
        assert_eq!(picture.matches('*').count(), tracks.split(' ').count(), "{picture}");
    }
}

#[test]
fn what_is_not_drawn() {
    let path = example("k.txt");
    for (column, shift) in [("1", "1"), ("3", "-3"), ("0", "0"), ("5", "0"), ("65535", "32767")] {
        let said = format!("staff: {path}: 13: the pair is not listed\n");
        assert_eq!(run(&[&path, column, shift]), (Some(2), String::new(), said));
    }
    let faulty = file_with("staff_faulty.txt", "theme\texact\t60\t62\nchord\t60\nchord\t61\t62\n");
    let said = format!("staff: {faulty}: refused 11 3: line 3 is its first faulty line\n");
    assert_eq!(run(&[&faulty, "1", "0"]), (Some(2), String::new(), said));
    let said = "staff: COLUMN must be a number, 0 to 65535, and not `x`\n".to_string();
    assert_eq!(run(&[&path, "x", "0"]), (Some(2), String::new(), said));
    let (code, printed, said) = run(&[&path, "1"]);
    assert_eq!((code, printed.as_str()), (Some(2), ""));
    assert!(said.starts_with("usage: staff FILE COLUMN SHIFT\n"), "{said}");
    let (code, printed, said) = run(&["--help"]);
    assert_eq!((code, said.as_str()), (Some(0), ""));
    assert!(printed.starts_with("usage: staff FILE COLUMN SHIFT\n"), "{printed}");
}
