//! The commands of the program, over the crate. It says what the program says, but for help, misuse and failed writes, and reads a stream
//! whole before it writes.
//!
//!     cargo run --example cddlseq -- validate SPEC [FILE]
use cddlseq::{explain, End, Limits, NoMemory, Session, Specification, Step, Unread, Wanted};
use std::ffi::OsString;
use std::fs::File;
use std::io::{self, Read, Write};
use std::process::exit;

const BROKEN: i32 = 3;

/// A longer text is refused. One byte more is read, which tells that.
const LONGEST_TEXT: u64 = 1_048_577;

/// How many bytes of a stream are fed to a session at once.
const PIECE: usize = 4096;

struct Words {
    command: String,
    names: Vec<String>,
    root: Option<String>,
    is_quiet: bool,
    is_deterministic: bool,
    is_explained: bool,
    limits: Limits,
}

/// The program ends with this line on standard error, and this status.
struct Stop(String, i32);

impl From<NoMemory> for Stop {
    fn from(_: NoMemory) -> Stop {
        Stop("out of memory\n".to_string(), BROKEN)
    }
}

impl From<Unread> for Stop {
    fn from(why: Unread) -> Stop {
        let status = if matches!(why, Unread::Refused { .. }) {
            2
        } else {
            BROKEN
        };
        Stop(format!("{why}\n"), status)
    }
}

fn misuse() -> Stop {
    Stop(
        "usage: cddlseq check|validate|rewrite|show|explain [OPTION..] SPEC [FILE]\n".to_string(),
        BROKEN,
    )
}

fn texts_of(words: impl Iterator<Item = OsString>) -> Result<Vec<String>, Stop> {
    (1..)
        .zip(words)
        .map(|(number, word)| {
            let why = |_| Stop(format!("argument {number} is not UTF-8\n"), BROKEN);
            word.into_string().map_err(why)
        })
        .collect()
}

fn words_of(mut words: impl Iterator<Item = String>) -> Result<Words, Stop> {
    let mut into = Words {
        command: words.next().ok_or_else(misuse)?,
        names: Vec::new(),
        root: None,
        is_quiet: false,
        is_deterministic: false,
        is_explained: false,
        limits: Limits::default(),
    };
    let mut all_are_names = false;
    while let Some(word) = words.next() {
        if all_are_names || word == "-" || !word.starts_with('-') {
            into.names.push(word);
            continue;
        }
        let (option, value) = match word.split_once('=') {
            Some((option, value)) => (option.to_string(), Some(value.to_string())),
            None => (word, None),
        };
        match option.as_str() {
            "--" => all_are_names = true,
            "--quiet" => into.is_quiet = true,
            "--deterministic" => into.is_deterministic = true,
            "--explain" => into.is_explained = true,
            _ => {
                let value = value.or_else(|| words.next()).ok_or_else(misuse)?;
                set_option(&mut into, &option, value)?;
            }
        }
    }
    Ok(into)
}

fn set_option(into: &mut Words, option: &str, value: String) -> Result<(), Stop> {
    match option {
        "--root" => into.root = Some(value),
        "--depth" => into.limits.depth = value.parse().map_err(|_| misuse())?,
        "--item-bytes" => into.limits.item_bytes = value.parse().map_err(|_| misuse())?,
        "--steps" => into.limits.steps = value.parse().map_err(|_| misuse())?,
        _ => return Err(misuse()),
    }
    Ok(())
}

/// A name with its control characters, and those that change the order of others, as their numbers.
fn shown(name: &str) -> String {
    let is_escaped = |it: char| it.is_control() || matches!(it, '\u{202a}'..='\u{202e}' | '\u{2066}'..='\u{2069}');
    let number = |it: char| format!("\\u{:04x}", it as u32);
    name.chars()
        .map(|it| if is_escaped(it) { number(it) } else { it.to_string() })
        .collect()
}

fn read(name: &str, most: u64) -> Result<Vec<u8>, Stop> {
    let mut bytes = Vec::new();
    let read = if name == "-" {
        io::stdin().take(most).read_to_end(&mut bytes)
    } else {
        let file = File::open(name);
        let file = file.map_err(|_| Stop(format!("cannot open {}\n", shown(name)), BROKEN))?;
        file.take(most).read_to_end(&mut bytes)
    };
    match read {
        Ok(_) => Ok(bytes),
        Err(_) => Err(Stop(format!("cannot read {}\n", shown(name)), BROKEN)),
    }
}

/// Feeds the stream in pieces, item by item.
fn in_pieces(words: &Words, text: &[u8], stream: &[u8]) -> Result<End, Stop> {
    let mut session = Session::new(text, words.root.as_deref(), words.limits)?;
    for piece in stream.chunks(PIECE) {
        let mut rest = piece;
        while !rest.is_empty() {
            match session.feed(rest)? {
                Step::More => break,
                Step::Item { used } => rest = &rest[used..],
                Step::Ended(end) => return Ok(end),
            }
        }
    }
    Ok(session.finish()?)
}

fn tell_meaning(words: &Words) -> Result<i32, Stop> {
    let word = words.names.first().ok_or_else(misuse)?;
    let Some(text) = explain(word)? else {
        let unknown = "no such code or cause (cddlseq explain --help lists them)";
        return Err(Stop(format!("{unknown}: {}\n", shown(word)), BROKEN));
    };
    print!("{text}");
    Ok(0)
}

fn perform(words: &Words) -> Result<i32, Stop> {
    if words.command == "explain" {
        return tell_meaning(words);
    }
    let mut names = words.names.iter();
    let (spec, text) = if words.command == "show" {
        ("", b"a = any".to_vec())
    } else {
        let spec = names.next().ok_or_else(misuse)?;
        (spec.as_str(), read(spec, LONGEST_TEXT)?)
    };
    let mut specification = match Specification::new(&text, words.root.as_deref(), words.limits) {
        Ok(specification) => specification,
        Err(why @ Unread::Refused { .. }) if words.is_explained => {
            return Err(Stop(why.explained(&text, words.root.as_deref(), spec)?, 2))
        }
        Err(why) => return Err(why.into()),
    };
    if words.command == "check" {
        println!("accepted");
        return Ok(0);
    }
    let name = names.next().map_or("-", |it| it.as_str());
    let stream = read(name, u64::MAX)?;
    let wanted = match (words.command.as_str(), words.is_quiet, words.is_deterministic) {
        ("validate", true, _) => Wanted::EndLine,
        ("validate" | "show", false, _) => Wanted::Report,
        ("rewrite", _, true) => Wanted::Deterministic,
        ("rewrite", _, false) => Wanted::Preferred,
        _ => return Err(misuse()),
    };
    let (bytes, end) = specification.write(&stream, wanted)?;
    if in_pieces(words, &text, &stream)? != end {
        return Err(Stop("a session says something else\n".to_string(), BROKEN));
    }
    let _ = io::stdout().write_all(&bytes).and_then(|()| io::stdout().flush());
    if words.command == "rewrite" {
        let _ = io::stderr().write_all(&specification.write(&stream, Wanted::EndLine)?.0);
    }
    Ok(i32::from(!end.is_clean()))
}

fn main() {
    let words = texts_of(std::env::args_os().skip(1)).and_then(|words| words_of(words.into_iter()));
    let told = words.and_then(|words| perform(&words));
    exit(told.unwrap_or_else(|Stop(line, status)| {
        let _ = io::stderr().write_all(line.as_bytes());
        status
    }))
}
