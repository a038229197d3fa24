//! Compares the proved library with this crate's own implementation, case by case, and stops at the first difference. Where
//! there is none, and a file is named, it writes the table of vectors there.

mod derive;
mod message;
mod multiply;
mod packing;
mod profile;
mod shake;
mod walled;

use std::env;
use std::fmt::Display;
use std::fs::File;
use std::io::{self, BufWriter, Write};
use std::process::ExitCode;
use std::time::Instant;

use compare::profile::Profile;
use compare::random::Random;
use compare::table;

/// What the two did differently, and on which input.
struct Difference(String);

/// A group of cases, which gives how many there were.
type Group = fn(&mut Random) -> Result<u64, Difference>;

const GROUPS: [(&str, Group); 31] = [
    ("products, all of the smallest rings", multiply::all_small_products),
    ("products, at the edges and random", multiply::products),
    ("multiply, wrong lengths", multiply::wrong_lengths),
    ("multiply, a number out of range at every place", multiply::every_place),
    ("multiply, several numbers out of range", multiply::several_places),
    ("multiply, rings that there are not", multiply::bad_rings),
    ("SHAKE128, every length of message and output", shake::lengths),
    ("SHAKE128, 4032 bytes and long messages", shake::long),
    ("derive by tape, every length of tape", derive::tapes),
    ("derive by tape, numbers around q", derive::numbers_around_q),
    ("derive by SHAKE128", derive::seeds),
    ("derive, wrong lengths and profiles", derive::refusals),
    ("round, every residue", profile::round),
    ("recover, every value", profile::recover),
    ("reconcile, every residue and coin", profile::reconcile),
    ("read, every residue and signal", profile::read),
    ("round, recover, reconcile and read, refusals", profile::refusals),
    ("pack and unpack, every width", packing::round_trips),
    ("pack and unpack, wrong lengths", packing::wrong_lengths),
    ("pack, a number that does not fit at every place", packing::every_place),
    ("pack and unpack, widths that there are not", packing::bad_widths),
    ("messages, written and read back", message::round_trips),
    ("write a message, wrong lengths", message::write_wrong_lengths),
    ("write a message, a number out of range at every place", message::write_every_place),
    ("read a message, cut at every length and longer", message::cuts),
    ("read a message, every byte damaged", message::single_damages),
    ("read a message, several bytes damaged", message::several_damages),
    ("read a message, every count", message::every_count),
    ("read a message, another kind or profile", message::others),
    ("read a message, random bytes", message::random_bytes),
    ("messages, wrong buffers, seeds and profiles", message::wrong_buffers),
];

fn main() -> ExitCode {
    let start = Instant::now();
    let mut all = 0;
    for (seed, (name, group)) in (0..).zip(GROUPS) {
        // The name goes out first, so that a crash can be told to its group.
        print!("{name}: ");
        let _ = io::stdout().flush();
        match group(&mut Random::new(seed)) {
            Ok(cases) => {
                println!("{cases} cases");
                all += cases;
            }
            Err(Difference(text)) => {
                println!("DIFFERENT\n{text}");
                return ExitCode::FAILURE;
            }
        }
    }
    println!("no difference in {all} cases, {:.1} s", start.elapsed().as_secs_f64());
    match env::args().nth(1).map(|path| File::create(path).and_then(|file| table::write(BufWriter::new(file)))) {
        Some(Err(error)) => {
            println!("the table was not written: {error}");
            ExitCode::FAILURE
        }
        _ => ExitCode::SUCCESS,
    }
}

/// Compares two outcomes of one call.
fn same<T: PartialEq + Display>(proved: T, plain: T, call: impl FnOnce() -> String) -> Result<(), Difference> {
    if proved == plain {
        return Ok(());
    }
    Err(Difference(format!("{}\nproved: {proved}\nplain: {plain}", call())))
}

/// Compares two lists that one call gave, and shows the first place where they differ.
fn same_list<T: PartialEq + Display>(
    proved: &[T],
    plain: &[T],
    call: impl FnOnce() -> String,
) -> Result<(), Difference> {
    assert_eq!(proved.len(), plain.len());
    match (0..plain.len()).find(|&i| proved[i] != plain[i]) {
        None => Ok(()),
        Some(i) => same(&proved[i], &plain[i], || format!("{}\nwhat it leaves at place {i}:", call())),
    }
}

/// Something that has to be so after a call.
fn holds(fact: bool, what: &str, call: impl FnOnce() -> String) -> Result<(), Difference> {
    if fact { Ok(()) } else { Err(Difference(format!("{}\nproved: {what}", call()))) }
}

/// The house profiles with their indices.
fn profiles() -> impl Iterator<Item = (u8, Profile)> {
    (0..).zip(Profile::HOUSE)
}

/// The start of a list, to show.
fn brief<T: Display>(list: &[T]) -> String {
    const SHOWN: usize = 16;
    let shown: Vec<String> = list.iter().take(SHOWN).map(T::to_string).collect();
    let more = if list.len() > SHOWN { ", .." } else { "" };
    format!("[{}{more}] ({} long)", shown.join(", "), list.len())
}
