// Runs every row of docs/DIFFERENCES.md that has an image on the original and compares with what the row says of it.
// Usage: oracle-differences-mm PAGE. The report goes to descriptor 3.
mod output;
#[path = "../page.rs"]
mod page;
mod trap;

use mm::{Mm, Natives};
use std::io::Write;
use trap::number;

const STEPS: u64 = 10_000;

fn shown(trap: &mm::Trap) -> String {
    number(trap).map_or_else(|what| what, |n| n.to_string())
}

// What runimage would print, step by step.
fn rust(image: &Vec<u8>) -> String {
    let (mut m, program) = match Mm::from_binary("image", image, Natives::new(), Vec::new()) {
        Err(trap) => return format!("refused {}", shown(&trap)),
        Ok(both) => both,
    };
    let (mut cells, mut steps, mut ending) = (Vec::new(), 0, "limit".to_string());
    while steps < STEPS && !*m.halt() {
        let op = program[m.probe_ip()].1.as_bytes()[0];
        let top = m.stack().back().map(|c| c.0.to_bits());
        steps += 1;
        match m.probe_step(&program) {
            Ok(()) if op == 27 || op == 46 => cells.extend(top),
            Ok(()) => {}
            Err(trap) => {
                ending = shown(&trap);
                break;
            }
        }
    }
    if *m.halt() {
        ending = "halt".to_string();
    }
    page::ended(&cells, &ending, [steps, m.probe_ip() as u64, m.stack().len() as u64, m.probe_calls().len() as u64])
}

fn main() {
    std::panic::set_hook(Box::new(|_| {}));
    let answer = |image: &[u8]| std::panic::catch_unwind(|| rust(&image.to_vec())).unwrap_or_else(|_| "panics".to_string());
    let (report, passed) = page::report("the Rust", |row| &row.there, answer);
    writeln!(output::third(), "{report}").expect("a report");
    if !passed {
        std::process::exit(1);
    }
}
