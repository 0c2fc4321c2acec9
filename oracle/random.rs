// The host's calls on random bytes, each slice between pages that may not be touched: no byte outside is read or written, what may not
// change doesn't, and the same call at another address answers and leaves the same.
// Usage: oracle-random [SEED] [CALLS] [heap]. With `heap` each call is also made in the heap, where valgrind sees a byte outside. With few
// calls (under 100,000) not every number has to occur.
mod blocks;
// the comparison with the Rust has more of it
#[allow(dead_code)]
#[path = "mm/images.rs"]
mod images;
mod lent;
mod random_calls;
mod random_rules;
mod stand;

use blocks::Place;
use images::Random;
use stand::{Call, Lent, Stand, SLICES};
use std::collections::BTreeMap;

const MANY: u64 = 100_000;

// The numbers that each call can answer.
fn possible() -> Vec<(&'static str, u64)> {
    let loads = [0, 1, 2, 3, 4, 5, 6, 7, 8, 10, 50].map(|n| ("load", n));
    let runs = [0, 1, 50].into_iter().chain(20..=34).map(|n| ("run", n));
    let encodings = [0, 9, 10].map(|n| ("encode", n)).into_iter().chain([0, 9].map(|n| ("size", n)));
    loads.into_iter().chain(runs).chain(encodings).collect()
}

// At the end of the block or at its front, up to seven bytes off.
fn place(random: &mut Random) -> Place {
    let gap = if random.one_in(2) { 0 } else { random.below(8) as usize };
    if random.one_in(3) {
        Place::Front(gap)
    } else {
        Place::Back(gap)
    }
}

// The call on each stand, at other places each time: by the rules, and all the same.
fn made(call: Call, lent: &Lent, stands: &mut [Stand], random: &mut Random) -> Result<[u64; 3], String> {
    let places: [Place; SLICES] = std::array::from_fn(|_| place(random));
    let mut answers = Vec::new();
    for (by, stand) in stands.iter_mut().enumerate() {
        answers.push(stand.call(call, lent, places.map(|place| place.moved(by)))?);
    }
    random_rules::all(call, lent, &stands[0], answers[0])?;
    for (stand, answer) in stands.iter().zip(&answers) {
        let other = (0..SLICES).find(|i| stand.left(*i) != stands[0].left(*i));
        if *answer != answers[0] || other.is_some() {
            return Err(format!("{:?}, at another address {answer:?}, slice {other:?}", answers[0]));
        }
    }
    Ok(answers[0])
}

fn main() {
    let number = |i: usize, default: u64| std::env::args().nth(i).map_or(default, |a| a.parse().expect("a number"));
    let (seed, wanted) = (number(1, 1), number(2, 1_000_000));
    blocks::watch();
    let mut stands = vec![Stand::guarded(), Stand::guarded()];
    stands.extend((std::env::args().nth(3).as_deref() == Some("heap")).then(Stand::heap));
    let (mut calls, mut random) = (random_calls::Calls::new(seed), Random(!seed));
    let mut answered = BTreeMap::new();
    for i in 0..wanted {
        let (call, lent) = calls.next();
        let answer = made(call, &lent, &mut stands, &mut random).unwrap_or_else(|what| {
            println!("random: call {i} of seed {seed}, {call:?} on {:?} bytes: {what}", lent.each_ref().map(Vec::len));
            std::process::exit(1)
        });
        let name = match call {
            Call::Load => "load",
            Call::Run { .. } => "run",
            Call::Encode { .. } => "encode",
            Call::Size { .. } => "size",
        };
        *answered.entry((name, answer[0])).or_insert(0u64) += 1;
    }
    let counts: Vec<String> = answered.iter().map(|((name, number), n)| format!("{name} {number}: {n}")).collect();
    println!("random bytes: {wanted} calls, {} times each at other addresses; {}", stands.len(), counts.join(", "));
    let never: Vec<_> = possible().into_iter().filter(|answer| !answered.contains_key(answer)).collect();
    if wanted >= MANY && !never.is_empty() {
        println!("never answered: {never:?}");
        std::process::exit(1);
    }
}
