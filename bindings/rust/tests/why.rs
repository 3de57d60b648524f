//! The example `why` as it is run: what it prints, and the code with which it ends.

mod program;

use program::{example, file_with, hits_of_examples, Ended};

/// The chords of a score of five columns and two tracks, in which 67 62 stands at columns 1, 2 and 4.
const CHORDS: &str = "chord\t60\t67\nchord\t62\t69\nchord\t64\t-\nchord\t65\t72\nchord\t-\t67\n";

fn run(args: &[&str]) -> Ended {
    program::run("why", args)
}

/// What is printed of a pair of a bundled example.
fn printed(name: &str, column: &str, shift: &str) -> String {
    let (code, printed, said) = run(&[&example(name), column, shift]);
    assert_eq!((code, said.as_str()), (Some(0), ""));
    printed
}

#[test]
fn pairs_of_examples() {
    assert_eq!(printed("k.txt", "2", "2"), "listed: tracks 2 1\nthe sets keep column 2\n");
    assert_eq!(printed("k.txt", "1", "1"), "note 1 is absent from column 1\nthe sets keep column 1\n");
    let dismissed = "note 2 is absent from column 4\nthe sets dismiss column 3 by interval 1, of 7 semitones\n";
    assert_eq!(printed("k.txt", "3", "-3"), dismissed);
    assert_eq!(printed("k.txt", "1", "61"), "note 1 falls outside 0 to 127\nthe sets keep column 1\n");
    assert_eq!(printed("k.txt", "5", "0"), "from column 5 on there are too few columns with a pitch\n");
    assert_eq!(printed("k.txt", "0", "0"), "column 0 is no column\n");
    assert_eq!(printed("k.txt", "65535", "32767"), "shift 32767 is none of exact's, which are -127 to 127\n");
    assert_eq!(printed("barline.txt", "3", "0"), "column 3 holds no pitch\n");
    // over an empty column, from track to track
    assert_eq!(printed("barline.txt", "1", "0"), "listed: tracks 1 1 1 2\nthe sets keep column 1\n");
    let octave = printed("ode-octave.txt", "1", "12");
    assert!(octave.starts_with("shift 12 is none of octave's, which are 0 to 11\n"), "{octave}");
}

#[test]
fn a_tune_in_its_own_key() {
    assert_eq!(printed("k-written.txt", "1", "0"), "listed: tracks 2 1\nthe sets keep column 1\n");
    assert_eq!(printed("k-written.txt", "2", "0"), "note 1 is absent from column 2\nthe sets keep column 2\n");
    let (code, printed, said) = run(&[&example("k-written.txt"), "2", "2"]);
    assert_eq!((code, printed.as_str()), (Some(2), ""));
    let why = "its theme is written, which has shift 0 alone; only exact and octave can be explained\n";
    assert!(said.starts_with("why: ") && said.ends_with(why), "{said}");
}

#[test]
fn every_hit_of_the_examples_is_listed() {
    for (input, column, shift) in hits_of_examples() {
        let (code, printed, _) = run(&[&input, &column, &shift]);
        let kept = format!("\nthe sets keep column {column}\n");
        assert_eq!(code, Some(0));
        assert!(printed.starts_with("listed: tracks ") && printed.ends_with(&kept), "{input}: {printed}");
    }
}

#[test]
fn faulty_inputs() {
    let theme = "theme\texact\t67\t62\n";
    let faulty = [
        ("".to_string(), 1),
        ("\n".to_string(), 1),
        (CHORDS.to_string(), 1),
        (format!("theme\tminor\t67\t62\n{CHORDS}"), 1),
        (format!("theme\texact\t67\n{CHORDS}"), 1),
        (format!("theme\texact\t67\t-\n{CHORDS}"), 1),
        (format!("theme\texact{}\n{CHORDS}", "\t60".repeat(33)), 1),
        (theme.to_string(), 2),
        (theme.trim_end().to_string(), 1),
        (format!("{theme}{}", CHORDS.trim_end()), 6),
        (format!("{theme}{CHORDS}\n"), 7),
        (format!("{theme}{CHORDS}chord\t60\n"), 7),
        (format!("{theme}{CHORDS}chord\t60\t61\t62\n"), 7),
        (format!("{theme}chord\n"), 2),
        (format!("{theme}chord{}\n", "\t60".repeat(17)), 2),
        (format!("{theme}{}", "chord\t60\n".repeat(2049)), 2050),
    ];
    for (text, line) in faulty {
        let path = file_with("faulty.txt", &text);
        let said = format!("why: {path}: refused 11 {line}: line {line} is its first faulty line\n");
        assert_eq!(run(&[&path, "1", "0"]), (Some(2), String::new(), said), "{text:?}");
    }
    for cell in ["", " 60", "060", "00", "128", "255", "1000", "+5", "-5", "--", "6o", "60\r", "é"] {
        let path = file_with("faulty_cell.txt", &format!("{theme}chord\t60\nchord\t{cell}\nchord\t-\n"));
        let said = format!("why: {path}: refused 11 3: line 3 is its first faulty line\n");
        assert_eq!(run(&[&path, "1", "0"]), (Some(2), String::new(), said), "{cell:?}");
    }
}

#[test]
fn right_inputs_at_the_limits() {
    let theme = format!("theme\toctave{}\n", "\t127".repeat(32));
    let path = file_with("limits.txt", &format!("{theme}{}", format!("chord{}\n", "\t0".repeat(16)).repeat(2048)));
    let listed = format!("listed: tracks{}\nthe sets keep column 2017\n", " 1".repeat(32));
    assert_eq!(run(&[&path, "2017", "5"]), (Some(0), listed, String::new()));
    let few = "from column 2018 on there are too few columns with a pitch\n".to_string();
    assert_eq!(run(&[&path, "2018", "5"]), (Some(0), few, String::new()));
    let path = file_with("one_column.txt", "theme\texact\t60\t62\nchord\t-\n");
    let few = "from column 1 on there are too few columns with a pitch\n".to_string();
    assert_eq!(run(&[&path, "1", "0"]), (Some(0), few, String::new()));
}

#[test]
fn wrong_arguments() {
    let path = file_with("right.txt", &format!("theme\texact\t67\t62\n{CHORDS}"));
    let wrong: [&[&str]; 5] = [&[], &[&path], &[&path, "1"], &[&path, "1", "0", "0"], &["-h", "1"]];
    for args in wrong {
        let (code, printed, said) = run(args);
        assert_eq!((code, printed.as_str()), (Some(2), ""));
        assert!(said.starts_with("usage: why FILE COLUMN SHIFT\n"), "{said}");
    }
    for help in ["-h", "--help"] {
        let (code, printed, said) = run(&[help]);
        assert_eq!((code, said.as_str()), (Some(0), ""));
        assert!(printed.starts_with("usage: why FILE COLUMN SHIFT\n"), "{printed}");
    }
    for column in ["", "x", "-1", "65536", "1.5"] {
        let said = format!("why: COLUMN must be a number, 0 to 65535, and not `{column}`\n");
        assert_eq!(run(&[&path, column, "0"]), (Some(2), String::new(), said));
    }
    for shift in ["", "x", "32768", "-32769", "--1"] {
        let said = format!("why: SHIFT must be a number, -32768 to 32767, and not `{shift}`\n");
        assert_eq!(run(&[&path, "1", shift]), (Some(2), String::new(), said));
    }
    let (code, printed, said) = run(&["no_such_file.txt", "1", "0"]);
    assert_eq!((code, printed.as_str()), (Some(2), ""));
    assert!(said.starts_with("why: no_such_file.txt: "), "{said}");
}
