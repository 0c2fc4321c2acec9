// Runs every row of docs/DIFFERENCES.md that has an image through the host's calls and compares with what the row says of us; it needs
// nothing of the Rust. Usage: oracle-differences PAGE
mod lent;
mod page;

use lent::layout::{CALL_HEIGHT_AT, HEIGHT_AT, NUMBER_SIZE, POINTER_AT};
use lent::Program;

const STEPS: usize = 10_000;

// What runimage prints, on one line.
fn ours(image: &[u8]) -> String {
    let (program, mut machine) = match Program::load(image) {
        Err(number) => return format!("refused {number}"),
        Ok(loaded) => loaded,
    };
    let mut dumps = vec![0; STEPS * NUMBER_SIZE];
    let ran = program.run(&mut machine, STEPS as u64, &mut dumps);
    let ending = match ran.ending {
        0 => "halt".to_string(),
        1 => "limit".to_string(),
        number => number.to_string(),
    };
    let cells: Vec<u64> = lent::numbers(&dumps).take(ran.dumped as usize).collect();
    let numbers = [ran.steps, machine.number(POINTER_AT), machine.number(HEIGHT_AT), machine.number(CALL_HEIGHT_AT)];
    page::ended(&cells, &ending, numbers)
}

fn main() {
    let (report, passed) = page::report("here", |row| &row.here, ours);
    println!("{report}");
    if !passed {
        std::process::exit(1);
    }
}
