// A whole round: load, run with a small buffer, go on when it is full, tell how the round ended. Usage: round IMAGE
use mm_host::{Ending, Program};

const STEPS: u64 = 10_000;

fn main() -> Result<(), Box<dyn std::error::Error>> {
    let path = std::env::args().nth(1).ok_or("usage: round IMAGE")?;
    let program = Program::load(std::fs::read(path)?)?;
    let mut machine = program.machine();
    let mut dumps = [0; 4];
    let mut taken = 0;
    let ending = loop {
        let ran = machine.run(&program, STEPS - taken, &mut dumps);
        taken += ran.steps;
        for cell in ran.dumped {
            println!("{cell:016x}");
        }
        if ran.ending != Ending::BufferFull {
            break ran.ending;
        }
    };
    match ending {
        Ending::Halted => println!("halted after {taken} steps"),
        Ending::Limit => println!("still running after {taken} steps"),
        other => println!("stopped at instruction {} after {taken} steps: {other}", machine.pointer()),
    }
    Ok(())
}
