// The three engines on one image: the original, ours, and the interpreter in C.
use mm_host::layout::{INSTS_SIZE, LABELS_SIZE, MACHINE_SIZE, RECORD_SIZE};
use mm_host::lent::{self, Program};
use mm_host::Ending;
use std::time::Instant;

#[repr(C)]
struct Machine {
    stack: [u64; 1024],
    height: u64,
    calls: [u64; 1024],
    call_height: u64,
    memory: [u8; 1024],
    flags: u64,
    ip: u64,
}

#[repr(C)]
struct Inst {
    op: u64,
    val: u64,
    target: u64,
}

extern "C" {
    fn interpret(m: *mut Machine, code: *const Inst, count: u64, limit: u64) -> u64;
}

fn since(start: Instant) -> f64 {
    start.elapsed().as_nanos() as f64
}

// The original's load.
fn original(image: &Vec<u8>) -> (mm::Mm<'_>, mm::Program) {
    mm::Mm::from_binary("bench", image, mm::Natives::new(), Vec::new()).expect("the Rust loads it")
}

/// What is lent to our load: both tables and a machine.
pub struct Memory {
    insts: Vec<u8>,
    labels: Vec<u8>,
    machine: Box<[u8; MACHINE_SIZE]>,
}

impl Memory {
    pub fn new() -> Memory {
        Memory { insts: vec![0; INSTS_SIZE], labels: vec![0; LABELS_SIZE], machine: Box::new([0; MACHINE_SIZE]) }
    }

    pub fn load<'a>(&'a mut self, image: &'a [u8]) -> (Program<'a>, lent::Machine<'a>) {
        Program::load(image, &mut self.insts, &mut self.labels, &mut self.machine).expect("it loads")
    }
}

/// ns a step of the original. Its load isn't counted.
pub fn rust(image: &Vec<u8>, steps: u64) -> f64 {
    let (mut machine, program) = original(image);
    let start = Instant::now();
    let ended = machine.execute_program(false, Some(steps as usize), &program);
    let elapsed = since(start);
    assert!(ended.is_ok(), "the Rust traps");
    elapsed / steps as f64
}

/// ns a step of ours, and the machine that it leaves.
pub fn ours(image: &[u8], steps: u64, room: &mut [u8]) -> (f64, mm_host::Machine) {
    let mut memory = Memory::new();
    let (program, mut machine) = memory.load(image);
    let start = Instant::now();
    let ran = machine.run(&program, steps, room);
    let elapsed = since(start);
    assert_eq!((ran.ending, ran.steps), (Ending::Limit, steps));
    (elapsed / steps as f64, mm_host::Machine::from_bytes(machine.as_bytes()).expect("a machine"))
}

// The target of each instruction's name, as a lookup finds it: the last definition.
fn decoded(program: &Program) -> Vec<Inst> {
    let (image, count) = (program.image(), program.count() as usize);
    let records: Vec<u64> = program.insts().chunks_exact(8).map(|n| u64::from_le_bytes(n.try_into().expect("eight bytes"))).collect();
    let record = |i: usize| &records[RECORD_SIZE / 8 * i..][..RECORD_SIZE / 8];
    let name = |i: usize| &image[record(i)[2] as usize..(record(i)[2] + record(i)[3]) as usize];
    let target = |i: usize| (0..count).rev().find(|j| record(*j)[0] == 21 && name(*j) == name(i)).map_or(u64::MAX, |j| j as u64);
    let jumps = |op: u64| (12..=20).contains(&op) || op == 28;
    (0..count)
        .map(|i| Inst { op: record(i)[0], val: record(i)[1], target: if jumps(record(i)[0]) { target(i) } else { u64::MAX } })
        .collect()
}

/// ns a step of the interpreter in C, which has to leave the same pointer, heights and cells.
pub fn c(image: &[u8], steps: u64, expected: &mm_host::Machine) -> f64 {
    let mut memory = Memory::new();
    let (program, fresh) = memory.load(image);
    let (code, ip) = (decoded(&program), fresh.pointer());
    let mut m = Machine { stack: [0; 1024], height: 0, calls: [0; 1024], call_height: 0, memory: [0; 1024], flags: 0, ip };
    let start = Instant::now();
    // SAFETY: the machine is exclusively ours, and there are as many instructions as said.
    let taken = unsafe { interpret(&mut m, code.as_ptr(), code.len() as u64, steps) };
    let elapsed = since(start);
    assert_eq!((taken, m.ip, m.call_height), (steps, expected.pointer(), expected.addresses().len() as u64));
    assert_eq!(expected.cells(), &m.stack[..m.height as usize]);
    elapsed / steps as f64
}

/// ns of a run of so many steps at most, again and again on one machine.
pub fn short_runs(image: &[u8], limit: u64) -> f64 {
    let mut memory = Memory::new();
    let (program, mut machine) = memory.load(image);
    let (runs, mut steps) = (20_000, 0);
    let start = Instant::now();
    for _ in 0..runs {
        steps += machine.run(&program, limit, &mut []).steps;
    }
    let elapsed = since(start);
    assert_eq!(steps, runs * limit);
    elapsed / runs as f64
}

/// ns of load and one run to HALT together: the original, ours; and of our run alone. The same memory is lent again and again.
pub fn once(image: &Vec<u8>, memory: &mut Memory) -> [f64; 3] {
    let start = Instant::now();
    let (mut machine, program) = original(image);
    assert!(machine.execute_program(false, None, &program).is_ok());
    let rust = since(start);
    let start = Instant::now();
    let (program, mut machine) = memory.load(image);
    let between = Instant::now();
    let ran = machine.run(&program, u64::MAX, &mut []);
    let (all, alone) = (since(start), since(between));
    assert_eq!(ran.ending, Ending::Halted);
    [rust, all, alone]
}

/// ns of a load: the original, ours, into memory that is lent again and again.
pub fn loads(image: &Vec<u8>, memory: &mut Memory) -> [f64; 2] {
    let start = Instant::now();
    original(image);
    let rust = since(start);
    let start = Instant::now();
    memory.load(image);
    [rust, since(start)]
}

/// ns of writing a program out: the original's as_bytes of each instruction, ours; and of our call for the room.
pub fn encodes(image: &Vec<u8>) -> [f64; 3] {
    let (_, program) = original(image);
    let start = Instant::now();
    let written: Vec<u8> = program.iter().flat_map(|(_, inst)| inst.as_bytes()).collect();
    let rust = since(start);
    let mut memory = Memory::new();
    let (program, _) = memory.load(image);
    let mut out = vec![0; 2 * 16_384];
    let start = Instant::now();
    let encoded = program.encode(&mut out).expect("there is room");
    let ours = since(start);
    assert_eq!(encoded, written);
    let start = Instant::now();
    let room = program.encoded_size();
    let asked = since(start);
    assert_eq!(room, Ok(written.len()));
    [rust, ours, asked]
}
