//! What the programs `why` and `staff` have in common: they take an input of the lister, a column and a shift.

use finder::{AnyWay, Pair, Way, MOST_COLUMNS};
use std::ffi::{OsStr, OsString};
use std::fmt::Display;
use std::process::ExitCode;
use std::{env, fs};

/// A right input of the lister, with the name of its file.
pub struct Input {
    pub name: String,
    pub way: AnyWay,
    pub theme: Vec<u8>,
    pub cells: Vec<u8>,
    pub tracks: usize,
}

/// Runs a program of this name, which answers FILE COLUMN SHIFT: prints its answer, or says what is wrong with the arguments or
/// with the input.
pub fn run<T: Display>(program: &str, usage: &str, answer: impl Fn(&Input, Pair) -> Result<T, String>) -> ExitCode {
    let args: Vec<OsString> = env::args_os().skip(1).collect();
    let [file, column, shift] = &args[..] else {
        if matches!(&args[..], [arg] if arg == "-h" || arg == "--help") {
            println!("{usage}");
            return ExitCode::SUCCESS;
        }
        eprintln!("{usage}");
        return ExitCode::from(2);
    };
    let pair = || Ok(Pair { column: number(column, "COLUMN", "0 to 65535")?, shift: number(shift, "SHIFT", "-32768 to 32767")? });
    match pair().and_then(|pair| answer(&open(file)?, pair)) {
        Ok(answer) => {
            println!("{answer}");
            ExitCode::SUCCESS
        }
        Err(wrong) => {
            eprintln!("{program}: {wrong}");
            ExitCode::from(2)
        }
    }
}

fn number<N: std::str::FromStr>(arg: &OsStr, what: &str, range: &str) -> Result<N, String> {
    let number = arg.to_str().and_then(|text| text.parse().ok());
    number.ok_or_else(|| format!("{what} must be a number, {range}, and not `{}`", arg.to_string_lossy()))
}

fn open(file: &OsStr) -> Result<Input, String> {
    let name = file.to_string_lossy();
    let text = fs::read(file).map_err(|error| format!("{name}: {error}"))?;
    let faulty = |line| format!("{name}: refused 11 {line}: line {line} is its first faulty line");
    read(&name, &text).map_err(faulty)
}


/// Reads an input as the lister does, or gives the number of its first faulty line, from 1. That no line may have more than
/// 160 bytes needs no check of its own: no right line is as long.
fn read(name: &str, text: &[u8]) -> Result<Input, usize> {
    let mut lines = text.split_inclusive(|byte| *byte == b'\n');
    let (way, theme) = lines.next().and_then(theme_line).ok_or(1usize)?;
    let (mut cells, mut tracks) = (Vec::new(), 0);
    for (before, line) in lines.enumerate() {
        let fits = |chord: &Vec<u8>| before < MOST_COLUMNS && (before == 0 || chord.len() == tracks);
        let chord = chord_line(line).filter(fits).ok_or(before + 2)?;
        tracks = chord.len();
        cells.extend(chord);
    }
    // a theme without a chord: the line after it is missing
    if tracks == 0 { Err(2) } else { Ok(Input { name: name.to_string(), way, theme, cells, tracks }) }
}

/// The way and the notes of a theme line.
fn theme_line(line: &[u8]) -> Option<(AnyWay, Vec<u8>)> {
    let mut fields = fields(line, "theme")?;
    let way = match fields.next()? {
        b"exact" => Way::Exact.into(),
        b"octave" => Way::Octave.into(),
        b"written" => AnyWay::Written,
        _ => return None,
    };
    let notes: Vec<u8> = fields.map(pitch).collect::<Option<_>>()?;
    (2..=32).contains(&notes.len()).then_some((way, notes))
}

/// The cells of a chord line.
fn chord_line(line: &[u8]) -> Option<Vec<u8>> {
    let cell = |field: &[u8]| if field == b"-" { Some(255) } else { pitch(field) };
    let cells: Vec<u8> = fields(line, "chord")?.map(cell).collect::<Option<_>>()?;
    (1..=16).contains(&cells.len()).then_some(cells)
}

/// The fields of a line behind the word with which it begins. A line that no line feed closes is none.
fn fields<'a>(line: &'a [u8], word: &str) -> Option<impl Iterator<Item = &'a [u8]>> {
    let mut fields = line.strip_suffix(b"\n")?.split(|byte| *byte == b'\t');
    (fields.next()? == word.as_bytes()).then_some(fields)
}

/// A number 0 to 127 in decimal digits, without a needless 0 in front.
fn pitch(field: &[u8]) -> Option<u8> {
    let digits = field.iter().all(u8::is_ascii_digit) && (field.len() == 1 || field.first() != Some(&b'0'));
    let number = std::str::from_utf8(field).ok()?.parse().ok()?;
    (digits && number <= 127).then_some(number)
}
