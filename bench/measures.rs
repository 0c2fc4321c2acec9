// What one build measures: a line for each thing, its name and its numbers with tabs between.
use crate::engines;
use crate::images::{dumps, images, round, straight, Program};
use crate::labels;

pub fn tell(name: &str, numbers: &[f64]) {
    let told: Vec<String> = numbers.iter().map(|n| n.to_string()).collect();
    eprintln!("{name}\t{}", told.join("\t"));
}

pub fn least<const N: usize>(rounds: usize, mut measure: impl FnMut() -> [f64; N]) -> [f64; N] {
    let mut least = [f64::INFINITY; N];
    for _ in 0..rounds {
        let now = measure();
        least = std::array::from_fn(|i| least[i].min(now[i]));
    }
    least
}

/// ns a step: the original, ours, C. A dump has no place in the other two: the original prints it.
fn long_runs(steps: u64, rounds: usize) {
    for (name, Program(image)) in images() {
        let ns = least(rounds, || {
            let (ours, left) = engines::ours(&image, steps, &mut []);
            [engines::rust(&image, steps), ours, engines::c(&image, steps, &left)]
        });
        tell(&format!("run: {name}"), &ns);
    }
    let mut room = vec![1; 8 * (steps as usize / 3 + 1)];
    let image = dumps().0;
    tell("dumps", &least(rounds, || [engines::ours(&image, steps, &mut room).0]));
}

/// ns of a whole run of limit 1, 50.
fn short_runs(rounds: usize) {
    for many in [10, 400, 4_000] {
        let image = round(many).0;
        tell(&format!("short: {many}"), &least(rounds, || [engines::short_runs(&image, 1), engines::short_runs(&image, 50)]));
    }
}

/// ns an instruction: load and run by the original, by ours, and our run alone.
fn straight_code(rounds: usize) {
    let many = 1_000;
    let image = straight(many).0;
    let mut memory = engines::Memory::new();
    let ns = least(50 * rounds, || engines::once(&image, &mut memory));
    tell("straight", &ns.map(|n| n / many as f64));
}

/// ns and bytes: the original, ours; and our call for the room beside our encoding, as the original has none.
fn load_and_encode(rounds: usize) {
    let nops = (0..4_000).fold(Program::started(), |p, _| p.op(0));
    for (name, Program(image)) in [("straight code", straight(1_500)), ("400 labels", Program::started().labels(400)), ("4,000 NOPs", nops)]
    {
        let mut memory = engines::Memory::new();
        let count = memory.load(&image).0.count() as f64;
        let [rust, ours] = least(100 * rounds, || engines::loads(&image, &mut memory));
        tell(&format!("load, {name}"), &[rust, ours, image.len() as f64, count]);
        let [rust, ours, room] = least(100 * rounds, || engines::encodes(&image));
        tell(&format!("encode, {name}"), &[rust, ours, image.len() as f64, count]);
        tell(&format!("room: {name}"), &[room, ours, count]);
    }
}

pub fn all(steps: u64, rounds: usize) {
    long_runs(steps, rounds);
    short_runs(rounds);
    straight_code(rounds);
    load_and_encode(rounds);
    labels::runs(steps, rounds);
}
