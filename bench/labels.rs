// Runs over label records with the machine in place, beside the core's on the same images, in turn.
use crate::engines;
use crate::images::{images, round, Program};
use crate::measures::{least, tell};
use crate::records::{load, run, Label, Machine};
use mm_host::layout::{INSTS_SIZE, LABEL_MAX};
use std::time::Instant;

// a loaded program: its tables and count
struct Loaded {
    insts: Vec<u8>,
    labels: Vec<Label>,
    count: u64,
}

fn loaded(image: &[u8]) -> (Loaded, Box<Machine>) {
    let none = Label { start: 0, len: 0, target: 0, next: 0 };
    let (mut insts, mut labels) = (vec![0; INSTS_SIZE], vec![none; LABEL_MAX + 1]);
    let answer = load(image, &mut insts, &mut labels);
    assert_eq!(answer.number, 0, "it loads");
    (Loaded { insts, labels, count: answer.count }, Box::new(Machine::fresh(answer.ip)))
}

// ns a step in place, and the machine that it leaves
fn in_place(image: &[u8], steps: u64) -> (f64, Box<Machine>) {
    let (Loaded { insts, labels, count }, mut machine) = loaded(image);
    let start = Instant::now();
    let ran = run(image, &insts, &labels, count, &mut machine, steps, &mut []);
    let elapsed = start.elapsed().as_nanos() as f64;
    assert_eq!((ran.0, ran.1), (1, steps), "it ends by the limit");
    (elapsed / steps as f64, machine)
}

// ns of a run of so many steps at most, again and again on one machine
fn short_run(image: &[u8], limit: u64) -> f64 {
    let (Loaded { insts, labels, count }, mut machine) = loaded(image);
    let runs = 20_000;
    let start = Instant::now();
    for _ in 0..runs {
        run(image, &insts, &labels, count, &mut machine, limit, &mut []);
    }
    start.elapsed().as_nanos() as f64 / runs as f64
}

/// The core's and in place: ns a step, then ns of a whole run of limit 1, 50.
pub fn runs(steps: u64, rounds: usize) {
    for (name, Program(image)) in images() {
        let ns = least(rounds, || {
            let (core, left) = engines::ours(&image, steps, &mut []);
            let (here, same) = in_place(&image, steps);
            assert!(left.as_bytes()[..] == same.bytes(), "they leave other machines");
            [core, here]
        });
        tell(&format!("records: {name}"), &ns);
    }
    let image = round(400).0;
    for limit in [1, 50] {
        let ns = least(rounds, || [engines::short_runs(&image, limit), short_run(&image, limit)]);
        tell(&format!("records: a whole run of limit {limit}"), &ns);
    }
}
