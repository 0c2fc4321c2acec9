// Every number of document 01 beside its variant, both ways, and what it displays.
use mm_host::{layout, Ending, NotAMachine, Refusal, Trap, UnknownNumber};
use std::collections::BTreeSet;
use std::error::Error;
use std::fmt::Debug;

const REFUSALS: [(u64, Refusal); 10] = [
    (1, Refusal::ImageTooLong),
    (2, Refusal::UndefinedByte),
    (3, Refusal::PastEnd),
    (4, Refusal::NameByte),
    (5, Refusal::TooManyInstructions),
    (6, Refusal::TooManyLabels),
    (7, Refusal::NoStart),
    (8, Refusal::Native),
    (9, Refusal::IllRecord),
    (10, Refusal::NoRoom),
];

const TRAPS: [(u64, Trap); 13] = [
    (20, Trap::StackUnderflow),
    (21, Trap::StackOverflow),
    (22, Trap::NoOpenCall),
    (23, Trap::CallStackFull),
    (24, Trap::DivisionByZero),
    (25, Trap::AddressPastMemory),
    (26, Trap::NoSuchLabel),
    (27, Trap::NoSuchFunction),
    (28, Trap::WrongType),
    (29, Trap::NegativeConversion),
    (30, Trap::NotBothI64),
    (31, Trap::UnknownType),
    (32, Trap::NoSuchStream),
];

fn endings() -> Vec<(u64, Ending)> {
    let traps = TRAPS.map(|(number, trap)| (number, Ending::Trap(trap)));
    [&[(0, Ending::Halted), (1, Ending::Limit)], traps.as_slice(), &[(33, Ending::BufferFull), (34, Ending::IllState)]].concat()
}

// Each variant has its number and each number its variant; every other number is unknown.
fn both_ways<T>(table: &[(u64, T)], number: impl Fn(T) -> u64)
where
    T: Copy + Debug + PartialEq + TryFrom<u64, Error = UnknownNumber>,
{
    for n in (0..1_000).chain([u64::MAX, 1 << 32, (1 << 32) + 20]) {
        let known = table.iter().find(|row| row.0 == n).map(|row| row.1);
        assert_eq!(T::try_from(n), known.ok_or(UnknownNumber(n)));
    }
    for &(n, variant) in table {
        assert_eq!(number(variant), n, "{variant:?}");
    }
}

#[test]
fn refusals_both_ways() {
    both_ways(&REFUSALS, Refusal::number);
    assert_eq!(Refusal::ALL, REFUSALS.map(|row| row.1));
}

#[test]
fn traps_both_ways() {
    both_ways(&TRAPS, Trap::number);
    assert_eq!(Trap::ALL, TRAPS.map(|row| row.1));
}

#[test]
fn endings_both_ways() {
    both_ways(&endings(), Ending::number);
}

#[test]
fn each_sentence_is_its_own_and_ends_with_the_number() {
    let refusals = REFUSALS.map(|(number, refusal)| (number, refusal.to_string()));
    let endings = endings().into_iter().map(|(number, ending)| (number, ending.to_string()));
    let said: Vec<(u64, String)> = refusals.into_iter().chain(endings).collect();
    for (number, sentence) in &said {
        assert!(sentence.ends_with(&format!(" ({number})")), "{sentence}");
    }
    assert_eq!(said.iter().map(|row| &row.1).collect::<BTreeSet<_>>().len(), said.len());
}

#[test]
fn an_ending_by_a_trap_says_what_the_trap_says() {
    assert_eq!(Ending::from(Trap::DivisionByZero).to_string(), "an integer division (IDIV) by zero (24)");
    assert_eq!(Trap::DivisionByZero.to_string(), "an integer division (IDIV) by zero (24)");
}

#[test]
fn a_limit_in_a_sentence_is_the_layouts() {
    let said = [
        (Refusal::ImageTooLong.to_string(), layout::IMAGE_MAX),
        (Refusal::TooManyInstructions.to_string(), layout::INST_MAX),
        (Refusal::TooManyLabels.to_string(), layout::LABEL_MAX),
        (Trap::StackOverflow.to_string(), layout::STACK_SLOTS),
        (Trap::CallStackFull.to_string(), layout::CALL_SLOTS),
        (Trap::AddressPastMemory.to_string(), layout::MEMORY_SIZE),
    ];
    for (sentence, limit) in said {
        assert!(sentence.replace(',', "").contains(&format!(" {limit} ")), "{sentence}");
    }
}

#[test]
fn all_are_errors() {
    let all: [Box<dyn Error + Send + Sync>; 5] = [
        Refusal::NoStart.into(),
        Trap::NoOpenCall.into(),
        Ending::IllState.into(),
        UnknownNumber(50).into(),
        NotAMachine::Length(3).into(),
    ];
    assert_eq!(all[3].to_string(), "no variant has the number 50");
    assert_eq!(all[4].to_string(), "a machine has 17434 bytes, not 3 (50)");
    assert_eq!(NotAMachine::Halted(2).number(), 50);
}
