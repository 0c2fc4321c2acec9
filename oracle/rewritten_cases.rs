// The cases that rewritten.rs has to meet, and how often it met each.
use crate::lent::layout::{IMAGE_MAX, INST_MAX, LABEL_MAX};
use crate::lent::number_at;
use crate::walk::{form, loads, Form, Inst, Walk, HALT};
use std::collections::BTreeSet;
use std::fmt;

type Case = (&'static str, fn(&Walk) -> bool);

const CASES: [Case; 21] = [
    ("15 bytes", |w| w.image.len() == 15),
    ("ends with HALT", |w| !w.is_open()),
    ("ends with 69 in a name", |w| ends_with_69(w, Form::Name) && !w.name(last(w)).is_empty()),
    ("ends with 69 in a length", |w| ends_with_69(w, Form::Name) && w.name(last(w)).is_empty()),
    ("ends with 69 in a cell", |w| ends_with_69(w, Form::Eight) && last(w).first == 1),
    ("ends with 69 in a number", |w| ends_with_69(w, Form::Eight) && last(w).first != 1),
    ("ends with 69 in a stream", |w| ends_with_69(w, Form::One)),
    ("ends with another byte", |w| w.image.last() != Some(&HALT)),
    ("HALT before the last", |w| w.insts[..w.insts.len() - 1].iter().any(|inst| inst.first == HALT)),
    ("16,383 bytes, ends with HALT", |w| w.image.len() == IMAGE_MAX - 1 && !w.is_open()),
    ("16,383 bytes, HALT appended", |w| w.image.len() == IMAGE_MAX - 1 && w.is_open()),
    ("16,384 bytes, ends with HALT", |w| w.image.len() == IMAGE_MAX && !w.is_open()),
    ("16,384 bytes, HALT appended", |w| w.image.len() == IMAGE_MAX && w.is_open()),
    ("4,096 instructions, ends with HALT", |w| w.count() == INST_MAX && !w.is_open()),
    ("4,096 instructions, HALT appended", |w| w.count() == INST_MAX && w.is_open()),
    ("512 definitions", |w| w.definitions().count() == LABEL_MAX),
    ("a name of no byte", |w| w.named().any(|inst| w.name(inst).is_empty())),
    ("a name over 10,000 bytes", |w| w.named().any(|inst| w.name(inst).len() > 10_000)),
    ("`_start` defined twice", |w| twice(w).contains(b"_start".as_slice())),
    ("another label defined twice", |w| twice(w).iter().any(|name| *name != b"_start")),
    ("a jump to a label defined twice", jumps_to_twice),
];

fn last<'w>(walk: &'w Walk) -> &'w Inst {
    walk.insts.last().expect("a `_start` at least")
}

// Whether the last instruction has an operand of that form, and 69 as its last byte.
fn ends_with_69(walk: &Walk, of: Form) -> bool {
    form(last(walk).first) == of && walk.image.last() == Some(&HALT)
}

// The names with two definitions or more.
fn twice<'a>(walk: &Walk<'a>) -> BTreeSet<&'a [u8]> {
    let mut once = BTreeSet::new();
    walk.definitions().map(|inst| walk.name(inst)).filter(|name| !once.insert(*name)).collect()
}

fn jumps_to_twice(walk: &Walk) -> bool {
    let twice = twice(walk);
    walk.named().any(|inst| (12..=20).contains(&inst.first) && twice.contains(walk.name(inst)))
}

/// How often each first byte was met, each ignored bit of a length, and each case.
pub struct Met {
    firsts: [u64; 256],
    bits: [u64; 64],
    cases: [u64; CASES.len()],
}

// The bits that are ignored: bit 63 only where there is no name.
const BITS: std::ops::Range<usize> = 48..64;

impl Met {
    pub fn new() -> Met {
        Met { firsts: [0; 256], bits: [0; 64], cases: [0; CASES.len()] }
    }

    // Those that load, and how often each was met.
    fn firsts(&self) -> impl Iterator<Item = (usize, u64)> + '_ {
        self.firsts.iter().copied().enumerate().filter(|(first, _)| loads(*first as u8))
    }

    pub fn image(&mut self, walk: &Walk) {
        walk.insts.iter().for_each(|inst| self.firsts[usize::from(inst.first)] += 1);
        for inst in walk.named() {
            let field = number_at(walk.image, inst.at + 1);
            let counted = BITS.filter(|bit| *bit == 63 || !walk.name(inst).is_empty());
            counted.for_each(|bit| self.bits[bit] += field >> bit & 1);
        }
        for (met, (_, is_met)) in self.cases.iter_mut().zip(CASES) {
            *met += u64::from(is_met(walk));
        }
    }

    pub fn missing(&self) -> Vec<String> {
        let firsts = self.firsts().filter(|(_, met)| *met == 0).map(|(first, _)| format!("first byte {first}"));
        let bits = BITS.filter(|bit| self.bits[*bit] == 0).map(|bit| format!("bit {bit} of a length"));
        let cases = CASES.iter().zip(self.cases).filter(|(_, met)| *met == 0).map(|((case, _), _)| case.to_string());
        firsts.chain(bits).chain(cases).collect()
    }
}

impl fmt::Display for Met {
    fn fmt(&self, f: &mut fmt::Formatter<'_>) -> fmt::Result {
        let least = self.firsts().map(|(_, met)| met).min().expect("a first byte");
        write!(f, "{} first bytes: {least} or more each", self.firsts().count())?;
        write!(f, ", {} ignored bits of a length: {} or more each", BITS.len(), self.bits[BITS].iter().min().expect("a bit"))?;
        CASES.iter().zip(self.cases).try_for_each(|((case, _), met)| write!(f, ", {case}: {met}"))
    }
}
