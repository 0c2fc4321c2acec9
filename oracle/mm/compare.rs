// One image in both machines: after the load the program, its re-encoding, that loaded again and written out again, and the pointer; after
// every step the whole state. Where document 01's domain ends, ours is held to what the documents say there.
use crate::edge::Edge;
use crate::images::{self, Random};
use crate::lent::layout::{FLAGS_AT, IMAGE_MAX, NUMBER_SIZE, POINTER_AT, RECORD_SIZE};
use crate::lent::sys::Ran;
use crate::lent::{number_at, Machine, Program};
use crate::report::Report;
use crate::trap::number;
use crate::walk::{self, Walk};
use mm::{Mm, NaNBox, Natives};
use std::fmt;
use std::panic::{catch_unwind, AssertUnwindSafe};

pub enum Verdict {
    Agrees,
    // outside document 01's domain, where nothing is compared
    Outside(&'static str),
    Differs(String),
}

impl fmt::Display for Verdict {
    fn fmt(&self, f: &mut fmt::Formatter<'_>) -> fmt::Result {
        match self {
            Verdict::Agrees => write!(f, "agrees"),
            Verdict::Outside(why) => write!(f, "outside the domain: {why}"),
            Verdict::Differs(what) => write!(f, "{what}"),
        }
    }
}

// The steps that an image is followed for; one at document 01's limits for so many that it fills either stack.
pub const STEPS: u64 = 400;
pub const BOUNDARY_STEPS: u64 = 2_100;

// The runs that a step in pieces may take: random limits and buffers of no slot make some idle.
const RUNS: u64 = 100;

const FLOATS: std::ops::RangeInclusive<u64> = 23..=26;
const INTEGERS: std::ops::RangeInclusive<u64> = 5..=8;
const CONVERSIONS: std::ops::RangeInclusive<u64> = 31..=36;

// Document 01's one NaN.
const NAN: u64 = 0x7FF8_0000_0000_0000;

// Bits 48 to 51 of a plain NaN, which the Rust knows no type for: request a of document 02. The conversions that give 0 for it.
const PLAIN: u64 = 8;
const F2I: u64 = 31;
const F2U: u64 = 32;

fn first_difference(rust: &Mm, ours: &Machine) -> Option<String> {
    let cells = rust.stack().iter().map(|c| c.0.to_bits());
    let calls = rust.probe_calls().iter().map(|a| *a as u64);
    let (pointer, flags) = (ours.number(POINTER_AT), ours.0[FLAGS_AT]);
    if rust.probe_ip() as u64 != pointer {
        Some(format!("pointer: Rust {}, ours {pointer}", rust.probe_ip()))
    } else if rust.probe_flags() != flags {
        Some(format!("flags: Rust {:08b}, ours {flags:08b}", rust.probe_flags()))
    } else if *rust.halt() != ours.is_halted() {
        Some(format!("halted: Rust {}, ours {}", rust.halt(), ours.is_halted()))
    } else if !cells.clone().eq(ours.cells()) {
        Some(format!("stack: Rust {:X?}, ours {:X?}", cells.collect::<Vec<_>>(), ours.cells().collect::<Vec<_>>()))
    } else if !calls.clone().eq(ours.addresses()) {
        Some(format!("call stack: Rust {:?}, ours {:?}", calls.collect::<Vec<_>>(), ours.addresses().collect::<Vec<_>>()))
    } else if rust.probe_memory() != ours.memory() {
        Some("memory".to_string())
    } else {
        None
    }
}

// A NaN on top becomes document 01's; whether there was one.
fn replaced_nan(rust: &mut Mm) -> bool {
    let nan = rust.stack_mut().back_mut().filter(|c| c.0.is_nan());
    nan.map(|c| c.0 = f64::from_bits(NAN)).is_some()
}

// What request a of document 02 has for a step that takes a plain NaN by its type, and no operand of unknown type.
fn plain_nan_at(op: u64) -> Edge {
    match op {
        F2I | F2U => Edge::PlainNaNToZero,
        _ if CONVERSIONS.contains(&op) => Edge::PlainNaNWrongType,
        _ => Edge::PlainNaNNotI64,
    }
}

// The Rust popped the NaN and panicked. It gets what request a has in its place, so that all of the state is compared once more.
fn put_zero(rust: &mut Mm, op: u64) {
    rust.stack_mut().push_back(if op == F2I { NaNBox::from_i64(0) } else { NaNBox::from_u64(0) });
    rust.probe_onward();
}

struct Both<'a> {
    ours: Program<'a>,
    rust: &'a mm::Program,
    steps: u64,
}

const HALTED: u64 = 0;
const LIMIT: u64 = 1;

enum Step {
    On,
    Stop,
}

// What a step of the Rust came to: its trap, if any, and the cell that it dumped; or the edge that it met.
struct Taken {
    op: u64,
    trap: Option<u64>,
    dumped: Option<u64>,
    edge: Option<Edge>,
}

impl Taken {
    fn ending(&self) -> u64 {
        match (self.edge, self.trap, self.op) {
            (Some(edge), _, _) => edge.ending(),
            (None, Some(t), _) => t,
            (None, None, 69) => HALTED,
            (None, None, _) => LIMIT,
        }
    }

    // Where a run of limit 1 with room for one cell says otherwise.
    fn difference(&self, ran: &Ran, cell: u64) -> Option<String> {
        let (op, ending, dumped) = (self.op, self.ending(), u64::from(self.dumped.is_some()));
        let whose = if self.edge.is_some() { "the documents" } else { "the Rust" };
        if ran.ending != ending || ran.steps != 1 || ran.dumped != dumped {
            Some(format!("first byte {op}: {whose} {ending} and {dumped} cells, ours {ran:?}"))
        } else if self.dumped.is_some_and(|top| top != cell) {
            Some(format!("dumped cell: Rust {:X?}, ours {cell:X}", self.dumped))
        } else {
            None
        }
    }

    // Where the machine isn't left as the Rust's.
    fn left(&self, rust: &Mm, ours: &Machine) -> Option<String> {
        let compared = self.edge.is_none_or(Edge::has_state);
        let what = compared.then(|| first_difference(rust, ours)).flatten()?;
        let edge = self.edge.map_or(String::new(), |edge| format!(" ({})", edge.why()));
        Some(format!("after first byte {}{edge}: {what}", self.op))
    }
}

// How many cells from the top on the step takes by their types: an integer operation's two operands, a conversion's one.
fn operands(op: u64) -> usize {
    match op {
        _ if INTEGERS.contains(&op) => 2,
        _ if CONVERSIONS.contains(&op) => 1,
        _ => 0,
    }
}

impl<'a> Both<'a> {
    // What the Rust may panic at in this step, by the documents. Where it has no type for a cell, it gives bits 48 to 51.
    fn panic_at(&self, rust: &Mm<'a>, op: u64) -> Option<Edge> {
        let untyped: Vec<u64> = rust.stack().iter().rev().take(operands(op)).filter_map(|c| c.get_type().err()).collect();
        let stream = (op == 46).then(|| self.rust[rust.probe_ip()].1.as_bytes()[1]);
        match stream {
            _ if untyped.iter().any(|bits| *bits != PLAIN) => Some(Edge::UnknownType),
            _ if !untyped.is_empty() => Some(plain_nan_at(op)),
            Some(stream) if stream != 1 && stream != 2 => Some(Edge::Stream),
            _ => None,
        }
    }

    // One step of the Rust.
    fn take(&self, rust: &mut Mm<'a>, op: u64) -> Result<Taken, Verdict> {
        let top = rust.stack().back().map(|c| c.0.to_bits());
        let full = rust.stack().len() >= 1024 && [1, 11, 22].contains(&op);
        let deep = rust.probe_calls().len() >= 1024 && op == 28;
        let panic_at = self.panic_at(rust, op);
        let Ok(went) = catch_unwind(AssertUnwindSafe(|| rust.probe_step(self.rust))) else {
            let Some(edge) = panic_at else {
                return Err(Verdict::Differs(format!("first byte {op}: the Rust panics, and neither an operand's type nor a stream is why")));
            };
            if matches!(edge, Edge::PlainNaNToZero) {
                put_zero(rust, op);
            }
            return Ok(Taken { op, trap: None, dumped: None, edge: Some(edge) });
        };
        let trap = went.err().map(|t| number(&t)).transpose().map_err(Verdict::Differs)?;
        let edge = match trap {
            _ if deep => Some(Edge::Calls),
            None if full => Some(Edge::Stack),
            None if FLOATS.contains(&op) && replaced_nan(rust) => Some(Edge::NaN),
            _ => None,
        };
        let dumped = if trap.is_none() && op == 46 { top } else { None };
        Ok(Taken { op, trap, dumped, edge })
    }

    // One step of both: they agree, or the comparison ends.
    fn step(&self, rust: &mut Mm<'a>, ours: &mut Machine, report: &mut Report) -> Result<Step, Verdict> {
        let op = self.ours.first_byte(ours.number(POINTER_AT));
        let mut dumps = [0; NUMBER_SIZE];
        let halted = ours.is_halted();
        let ran = self.ours.run(ours, 1, &mut dumps);
        if halted {
            let ended = ran.ending == HALTED && ran.steps == 0;
            return if ended { Ok(Step::Stop) } else { Err(Verdict::Differs(format!("a halted machine: {ran:?}"))) };
        }
        let taken = self.take(rust, op)?;
        let differs = taken.difference(&ran, number_at(&dumps, 0)).or_else(|| taken.left(rust, ours));
        if taken.edge.is_none() {
            report.step(op as u8, taken.trap);
        }
        match (differs, taken.edge) {
            (Some(what), _) => Err(Verdict::Differs(what)),
            (None, Some(edge)) => Err(Verdict::Outside(edge.why())),
            (None, None) if taken.trap.is_some() => Ok(Step::Stop),
            (None, None) => Ok(Step::On),
        }
    }

    // A trap is tried twice: a later run tries the same instruction again.
    fn steps(&self, mut rust: Mm<'a>, mut ours: Machine, report: &mut Report) -> Verdict {
        let mut tries = 0;
        for _ in 0..self.steps {
            match self.step(&mut rust, &mut ours, report) {
                Err(verdict) => return verdict,
                Ok(Step::Stop) if ours.is_halted() || tries == 1 => return Verdict::Agrees,
                Ok(Step::Stop) => tries += 1,
                Ok(Step::On) => {}
            }
        }
        Verdict::Agrees
    }

    // The same steps in runs of random limits and buffers leave the same machine and cells as one run.
    fn pieces(&self, fresh: &Machine, random: &mut Random, report: &mut Report) -> Verdict {
        let mut whole = fresh.clone();
        let mut all = vec![0; self.steps as usize * NUMBER_SIZE];
        let one = self.ours.run(&mut whole, self.steps, &mut all);
        all.truncate(one.dumped as usize * NUMBER_SIZE);
        let mut ours = fresh.clone();
        let (mut left, mut cells, mut runs) = (one.steps, Vec::new(), 0);
        while left > 0 {
            runs += 1;
            if runs > RUNS * self.steps {
                return Verdict::Differs(format!("in pieces: {} runs and still {left} steps to go", runs - 1));
            }
            let limit = random.below(left + 1);
            let mut dumps = vec![0; random.below(4) as usize * NUMBER_SIZE];
            let ran = self.ours.run(&mut ours, limit, &mut dumps);
            if ran.steps > limit {
                return Verdict::Differs(format!("limit {limit}: {ran:?}"));
            }
            cells.extend_from_slice(&dumps[..ran.dumped as usize * NUMBER_SIZE]);
            left -= ran.steps;
        }
        report.pieces += 1;
        if ours != whole || cells != all {
            return Verdict::Differs("in pieces and in one run".to_string());
        }
        Verdict::Agrees
    }
}

// What the Rust has no rule for, or panics at, by our number. That the image has it is read off its bytes here.
fn beyond(number: u64, image: &[u8]) -> Option<(&'static str, bool)> {
    let firsts = images::firsts(image);
    let many = |op: u8| firsts.iter().filter(|first| **first == op).count();
    let closed = firsts.len() + usize::from(firsts.last() != Some(&69));
    match number {
        1 => Some(("1, an image over 16,384 bytes", image.len() > 16_384)),
        4 => Some(("4, a name byte of 128 or more", images::has_high_name(image))),
        5 => Some(("5, over 4,096 instructions", closed > 4_096)),
        6 => Some(("6, over 512 definitions", many(21) > 512)),
        8 => Some(("8, a NATIVE", many(37) > 0)),
        _ => None,
    }
}

// The load in both: the same number, or programs to be compared.
fn load<'a>(image: &'a Vec<u8>, report: &mut Report) -> Result<(Program<'a>, Machine, Mm<'a>, mm::Program), Verdict> {
    let loaded = Program::load(image);
    if let Err(n) = loaded {
        match beyond(n, image) {
            Some((why, true)) => return Err(Verdict::Outside(why)),
            Some((why, false)) => return Err(Verdict::Differs(format!("ours refuses with {why}, which the image hasn't"))),
            None => {}
        }
    }
    let original = catch_unwind(|| Mm::from_binary("image", image, Natives::new(), Vec::new()).map_err(|trap| number(&trap)));
    match (original, loaded) {
        (Err(_), Err(3)) if images::has_negative_length(image) => Err(Verdict::Outside("3, a negative length: the Rust panics")),
        (Err(_), other) => Err(Verdict::Differs(format!("the Rust panics at the load, ours {:?}", other.map(|(p, _)| p.count)))),
        (Ok(Err(refusal)), Err(n)) if refusal == Ok(n) => {
            *report.refusals.entry(n).or_default() += 1;
            Err(Verdict::Agrees)
        }
        (Ok(Err(refusal)), other) => {
            Err(Verdict::Differs(format!("the Rust refuses with {refusal:?}, ours {:?}", other.map(|(p, _)| p.count))))
        }
        (Ok(Ok((rust, program))), Ok((ours, machine))) => Ok((ours, machine, rust, program)),
        (Ok(Ok(_)), Err(n)) => Err(Verdict::Differs(format!("ours refuses with {n}"))),
    }
}

// What was written out loads again as the same program, which is written out as the same bytes, or is one byte too long, by the HALT.
fn loads_again(ours: &Program, machine: &Machine, written: &[u8], report: &mut Report) -> Option<String> {
    let records = ours.count as usize * RECORD_SIZE;
    match Program::load(written) {
        Ok((again, fresh)) => {
            report.again += 1;
            let mut out = vec![0; written.len()];
            let bytes = again.encode(&mut out).number == 0 && out == written;
            let tables = again.insts[..records] == ours.insts[..records] && again.labels == ours.labels;
            let same = again.count == ours.count && tables && fresh == *machine && bytes;
            (!same).then(|| "the program written out and loaded again".to_string())
        }
        Err(1) if written.len() == IMAGE_MAX + 1 && ours.image.len() == IMAGE_MAX => {
            report.too_long += 1;
            None
        }
        Err(n) => Some(format!("the program written out, of {} bytes, is refused with {n}", written.len())),
    }
}

// What the Rust writes out is what walk.rs expects, and the size is known beforehand.
fn as_expected(ours: &Program, written: &[u8], report: &mut Report) -> Option<String> {
    let Ok(walk) = catch_unwind(|| Walk::of(ours.image)) else {
        return Some("walk.rs can't read it".to_string());
    };
    report.at_limits(ours.image.len(), walk.count(), walk.is_open());
    let size = ours.encoded_size();
    if walk.written() != written {
        return Some(format!("the Rust writes {} bytes out, and walk.rs expects others, {}", written.len(), walk.written().len()));
    }
    let same = (size.number, size.size) == (0, written.len() as u64);
    (!same).then(|| format!("the Rust writes {} bytes out, our size is {size:?}", written.len()))
}

// In what ours wrote, which is what the Rust writes, each instruction's bytes by the Rust end where document 01's length of it says.
fn at_offsets(program: &mm::Program, out: &[u8]) -> Option<String> {
    let mut at = 0;
    program.iter().enumerate().find_map(|(k, (_, inst))| {
        let from = at;
        at = walk::end(out, from);
        (out.get(from..at) != Some(&inst.as_bytes()[..])).then(|| format!("instruction {k}, written out from byte {from} to {at}"))
    })
}

// What both have after the load: the instructions, written out, and the machine.
fn after_load(ours: &Program, machine: &Machine, rust: &Mm, program: &mm::Program, report: &mut Report) -> Option<String> {
    let written: Vec<u8> = program.iter().flat_map(|(_, inst)| inst.as_bytes()).collect();
    let mut out = vec![0; ours.image.len() + 1];
    let answer = ours.encode(&mut out);
    if (answer.number, answer.size) != (0, written.len() as u64) || out[..written.len()] != written {
        return Some("the program written out".to_string());
    }
    if ours.count as usize != program.len() {
        return Some(format!("instructions: Rust {}, ours {}", program.len(), ours.count));
    }
    let loaded = first_difference(rust, machine).map(|what| format!("after the load: {what}"));
    loaded
        .or_else(|| at_offsets(program, &out))
        .or_else(|| as_expected(ours, &written, report))
        .or_else(|| loads_again(ours, machine, &written, report))
}

fn judged(image: &Vec<u8>, steps: u64, random: &mut Random, report: &mut Report) -> Verdict {
    let (ours, machine, rust, program) = match load(image, report) {
        Ok(both) => both,
        Err(verdict) => return verdict,
    };
    if let Some(what) = after_load(&ours, &machine, &rust, &program, report) {
        return Verdict::Differs(what);
    }
    let both = Both { ours, rust: &program, steps };
    if let Verdict::Differs(what) = both.pieces(&machine, random, report) {
        return Verdict::Differs(what);
    }
    both.steps(rust, machine, report)
}

/// The image in both for so many steps, and in pieces by `random`.
pub fn compare(image: &[u8], steps: u64, random: &mut Random, report: &mut Report) -> Verdict {
    let verdict = judged(&image.to_vec(), steps, random, report);
    match &verdict {
        Verdict::Outside(why) => *report.outside.entry(why).or_default() += 1,
        _ => report.images += 1,
    }
    verdict
}
