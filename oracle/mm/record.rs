// Records the original's answers for crate replay: images, and a digest of the whole state after each step.
// Usage: oracle-record SEED IMAGES > FILE. crates/replay/README.md has the format.
// the comparison has more images
#[allow(dead_code)]
mod images;
mod output;
mod trap;

use images::Random;
use mm::{Mm, Natives, Program};
use std::io::Write;
use std::panic::{catch_unwind, AssertUnwindSafe};
use trap::number;

const PRIME: u64 = 4_294_967_291;

// Both halves of a number, one after the other.
fn mixed(h: u64, x: u64) -> u64 {
    let once = |h: u64, half: u64| (h * 257 + half) % PRIME;
    once(once(h, x % (1 << 32)), x >> 32)
}

// The ending of a run of limit 1 (0 halted, 1 limit, or a trap's number), the cell dumped (0 for none), and the machine.
fn digest(ending: u64, dumped: Option<u64>, m: &Mm) -> u64 {
    let mut h = mixed(mixed(7, ending), dumped.unwrap_or(0));
    for x in [m.probe_ip() as u64, m.probe_flags() as u64, *m.halt() as u64, m.stack().len() as u64, m.probe_calls().len() as u64] {
        h = mixed(h, x);
    }
    for cell in m.stack() {
        h = mixed(h, cell.0.to_bits());
    }
    for address in m.probe_calls() {
        h = mixed(h, *address as u64);
    }
    for byte in m.probe_memory() {
        h = mixed(h, *byte as u64);
    }
    h
}

// The digests after each step, up to the edge of document 01's domain.
fn trace<'a>(m: &mut Mm<'a>, program: &'a Program, steps: usize) -> Vec<u64> {
    let mut out = Vec::new();
    while out.len() < steps && !*m.halt() {
        let op = program[m.probe_ip()].1.as_bytes()[0];
        let top = m.stack().back().map(|c| c.0.to_bits());
        let full = m.stack().len() >= 1024 && [1, 11, 22].contains(&op) || m.probe_calls().len() >= 1024 && op == 28;
        if full {
            break;
        }
        let Ok(went) = catch_unwind(AssertUnwindSafe(|| m.probe_step(program))) else { break };
        let trap = went.err().map(|t| number(&t).expect("a number"));
        if (23..=26).contains(&op) && trap.is_none() && m.stack().back().is_some_and(|c| c.0.is_nan()) {
            break;
        }
        let dumped = if trap.is_none() && (op == 46 || op == 27) { top } else { None };
        let ending = trap.unwrap_or(if *m.halt() { 0 } else { 1 });
        out.push(digest(ending, dumped, m));
        if trap.is_some() {
            break;
        }
    }
    out
}

// An image, then 0 and its digests, or the number of its refusal. None where the original panics or has no such rule.
fn record(image: &Vec<u8>) -> Option<Vec<u8>> {
    if image.len() > 1_000 || images::has_high_name(image) {
        return None;
    }
    let loaded = catch_unwind(|| Mm::from_binary("image", image, Natives::new(), Vec::new())).ok()?;
    let mut out = (image.len() as u16).to_le_bytes().to_vec();
    out.extend_from_slice(image);
    match loaded {
        Err(trap) => out.push(number(&trap).expect("a number") as u8),
        Ok((mut m, program)) => {
            let digests = trace(&mut m, &program, 120);
            out.push(0);
            out.extend_from_slice(&(digests.len() as u16).to_le_bytes());
            digests.iter().for_each(|d| out.extend_from_slice(&(*d as u32).to_le_bytes()));
        }
    }
    Some(out)
}

fn main() {
    let argument = |i: usize| std::env::args().nth(i).expect("usage: oracle-record SEED IMAGES").parse::<u64>().expect("a number");
    let (mut random, wanted) = (Random(argument(1)), argument(2));
    std::panic::set_hook(Box::new(|_| {}));
    let mut file = output::third();
    let mut done = 0;
    while done < wanted {
        let image = if random.one_in(6) { images::damaged(&mut random) } else { images::lively(&mut random) };
        if let Some(bytes) = record(&image) {
            file.write_all(&bytes).expect("a file");
            done += 1;
        }
    }
}
