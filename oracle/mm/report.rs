// What was compared, how often, and what never was.
use crate::edge::Edge;
use crate::lent::layout::{IMAGE_MAX, INST_MAX};
use std::collections::BTreeMap;
use std::fmt;

pub struct Report {
    pub images: u64,
    pub steps: u64,
    pub pieces: u64,
    // programs that were written out and loaded again, and those that were refused then for a byte too many
    pub again: u64,
    pub too_long: u64,
    // of those, the ones at a limit
    limits: BTreeMap<String, u64>,
    pub instructions: BTreeMap<u8, u64>,
    pub traps: BTreeMap<u64, u64>,
    pub refusals: BTreeMap<u64, u64>,
    // why a comparison ended: outside document 01's domain
    pub outside: BTreeMap<&'static str, u64>,
}

// The limits that an image written out has to be at, each with HALT in the image and with HALT appended.
const LIMITS: [&str; 3] = ["16,383 bytes", "16,384 bytes", "4,096 instructions"];

fn at_limit(name: &str, appended: bool) -> String {
    format!("{name}, {}", if appended { "HALT appended" } else { "ends with HALT" })
}

impl Report {
    pub fn new() -> Report {
        Report {
            images: 0,
            steps: 0,
            pieces: 0,
            again: 0,
            too_long: 0,
            limits: BTreeMap::new(),
            instructions: BTreeMap::new(),
            traps: BTreeMap::new(),
            refusals: BTreeMap::new(),
            outside: BTreeMap::new(),
        }
    }

    pub fn step(&mut self, op: u8, trap: Option<u64>) {
        self.steps += 1;
        *self.instructions.entry(op).or_default() += 1;
        if let Some(t) = trap {
            *self.traps.entry(t).or_default() += 1;
        }
    }

    // An image of that length is written out, with so many instructions.
    pub fn at_limits(&mut self, len: usize, count: usize, appended: bool) {
        let at = [len == IMAGE_MAX - 1, len == IMAGE_MAX, count == INST_MAX];
        for (name, _) in LIMITS.iter().zip(at).filter(|(_, at)| *at) {
            *self.limits.entry(at_limit(name, appended)).or_default() += 1;
        }
    }

    // Of what the Rust can show: all first bytes but NATIVE's, which it panics on, and 27, which it reads as 46. Of the edges, every one.
    pub fn missing(&self) -> Vec<String> {
        let instructions = (0..=46u8).chain([69]).filter(|op| *op != 37 && *op != 27 && !self.instructions.contains_key(op));
        let traps = [20, 22, 24, 25, 26, 27, 28, 29, 30].into_iter().filter(|t| !self.traps.contains_key(t));
        let refusals = [2, 3, 7].into_iter().filter(|n| !self.refusals.contains_key(n));
        let edges = Edge::ALL.into_iter().map(Edge::why).filter(|why| !self.outside.contains_key(why));
        let limits = LIMITS.iter().flat_map(|name| [at_limit(name, false), at_limit(name, true)]).filter(|name| !self.limits.contains_key(name));
        let too_long = (self.too_long == 0).then(|| "a program written out in 16,385 bytes".to_string());
        instructions
            .map(|op| format!("first byte {op}"))
            .chain(traps.map(|t| format!("trap {t}")))
            .chain(refusals.map(|n| format!("refusal {n}")))
            .chain(edges.map(str::to_string))
            .chain(limits.map(|name| format!("written out: {name}")))
            .chain(too_long)
            .collect()
    }
}

fn counts<K: fmt::Display>(all: &BTreeMap<K, u64>, between: &str) -> String {
    all.iter().map(|(k, n)| format!("{k}: {n}")).collect::<Vec<_>>().join(between)
}

impl fmt::Display for Report {
    fn fmt(&self, f: &mut fmt::Formatter<'_>) -> fmt::Result {
        writeln!(f, "{} images and {} steps compared, {} images also in pieces", self.images, self.steps, self.pieces)?;
        writeln!(f, "written out and loaded again: {} programs; in 16,385 bytes and refused: {}", self.again, self.too_long)?;
        writeln!(f, "at the limits: {}", counts(&self.limits, "; "))?;
        writeln!(f, "steps by first byte: {}", counts(&self.instructions, ", "))?;
        writeln!(f, "traps: {}", counts(&self.traps, ", "))?;
        writeln!(f, "refusals: {}", counts(&self.refusals, ", "))?;
        write!(f, "left at the edge of the domain: {}", counts(&self.outside, "; "))
    }
}
