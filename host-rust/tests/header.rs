// include/mm.h beside the Rust: the same calls, structs, sizes, places, numbers and sentences.
mod declarations;

use mm_host::{layout, Ending, NotAMachine, Refusal};
use std::collections::BTreeMap;
use std::fmt::{Debug, Display};

const HEADER: &str = include_str!("../../include/mm.h");
const SYS: &str = include_str!("../src/sys.rs");
const LAYOUT: &str = include_str!("../src/layout.rs");

// Both lists have so many lines, and the same ones.
fn assert_same(header: &[String], rust: &[String], count: usize) {
    for (ours, theirs) in header.iter().zip(rust) {
        assert_eq!(ours, theirs, "mm.h has the first of these, sys.rs the second");
    }
    assert_eq!((header.len(), rust.len()), (count, count));
}

#[test]
fn the_calls_are_the_same() {
    assert_same(&declarations::c_calls(HEADER), &declarations::rust_calls(SYS), 4);
}

#[test]
fn the_answers_are_the_same() {
    assert_same(&declarations::c_structs(HEADER), &declarations::rust_structs(SYS), 3);
}

// The names that layout.rs declares, with the values that the compiler gives them.
macro_rules! constants {
    ($($name:ident)*) => { [$((stringify!($name), layout::$name)),*] };
}

#[test]
fn the_sizes_and_places_are_the_same() {
    let known = constants!(IMAGE_MAX INST_MAX LABEL_MAX STACK_SLOTS CALL_SLOTS MEMORY_SIZE NUMBER_SIZE RECORD_SIZE INSTS_SIZE LABELS_SIZE
        ENCODED_MAX STACK_AT CALLS_AT MEMORY_AT HEIGHT_AT CALL_HEIGHT_AT POINTER_AT FLAGS_AT HALTED_AT MACHINE_SIZE);
    let declared: Vec<&str> = LAYOUT.lines().filter_map(|line| line.strip_prefix("pub const ")?.split(':').next()).collect();
    assert_eq!(declared, known.map(|row| row.0));
    let defined: BTreeMap<&str, usize> = HEADER.lines().filter_map(defined).collect();
    assert_eq!(defined, BTreeMap::from(known));
}

// `#define MM_NAME VALUE`
fn defined(line: &str) -> Option<(&str, usize)> {
    let mut words = line.strip_prefix("#define MM_")?.split_whitespace();
    let name = words.next()?;
    Some((name, words.next()?.parse().expect("a plain number")))
}

type Row = (String, u64, String);

// `MM_NAME = NUMBER, /* sentence */` between the enum's braces
fn enumerators(name: &str) -> Vec<Row> {
    let (_, from) = HEADER.split_once(&format!("enum {name} {{\n")).expect("the header has this enum");
    let (inside, _) = from.split_once("};").expect("the enum ends");
    inside.lines().map(enumerator).collect()
}

fn enumerator(line: &str) -> Row {
    let (name, rest) = line.trim().split_once(" = ").expect("a name and its number");
    let (number, comment) = rest.split_once("/*").unwrap_or((rest, "*/"));
    let number = number.trim().trim_end_matches(',').parse().expect("a plain number");
    (name.to_string(), number, comment.trim_end_matches("*/").trim().to_string())
}

// A variant in the header's notation.
fn row(variant: impl Debug + Display, number: u64) -> Row {
    let sentence = variant.to_string();
    let sentence = sentence.strip_suffix(&format!(" ({number})")).expect("the number is behind the sentence");
    (upper(&inner(&format!("{variant:?}"))), number, sentence.to_string())
}

// The trap's name in `Trap(Name)`, or the name itself.
fn inner(name: &str) -> String {
    name.trim_start_matches("Trap(").trim_end_matches(')').to_string()
}

// MM_SUCH_A_NAME for SuchAName
fn upper(name: &str) -> String {
    let mut out = "MM".to_string();
    for letter in name.chars() {
        if letter.is_uppercase() {
            out.push('_');
        }
        out.push(letter.to_ascii_uppercase());
    }
    out
}

#[test]
fn the_numbers_are_the_same() {
    let refusals: Vec<Row> = Refusal::ALL.iter().map(|refusal| row(refusal, refusal.number())).collect();
    assert_eq!(enumerators("mm_refusal"), refusals);
    let endings = (0..1_000).filter_map(|number| Ending::try_from(number).ok());
    assert_eq!(enumerators("mm_ending"), endings.map(|ending| row(ending, ending.number())).collect::<Vec<_>>());
    let no_machine = NotAMachine::Length(0).number();
    assert_eq!(enumerators("mm_no_machine"), [("MM_NOT_A_MACHINE".to_string(), no_machine, String::new())]);
}
