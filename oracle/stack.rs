// The stack that each of the host's calls needs, as a table in Markdown: the most that was written below the stack pointer at the call,
// over many images. So counted are the return address, saved registers, locals, and what memcpy and memset of the C library take.
// Usage: oracle-stack PAGE. Each row of the page's table has to be at least what was measured, and at most 64 bytes more.
// the comparison with the Rust has more of it
#[allow(dead_code)]
#[path = "mm/images.rs"]
mod images;
#[allow(dead_code)]
#[path = "../host-rust/src/layout.rs"]
mod layout;
mod painted;

use images::Random;
use layout::*;
use painted::Stack;

// Declared for their addresses only: painted.rs passes what they take.
mod c {
    extern "C" {
        pub fn mm_load();
        pub fn mm_run();
        pub fn mm_encode();
        pub fn mm_encoded_size();
        pub fn mm_load_labels();
        pub fn mm_run_in_place();
    }
}

const NAMES: [&str; 6] = ["mm_load", "mm_run", "mm_encode", "mm_encoded_size", "mm_load_labels", "mm_run_in_place"];
const CALLS: [unsafe extern "C" fn(); 6] = [c::mm_load, c::mm_run, c::mm_encode, c::mm_encoded_size, c::mm_load_labels, c::mm_run_in_place];
const SLACK: usize = 64;
// A machine in place, as records.rs has it: its size and its pointer's place, in numbers.
const IN_PLACE: usize = 17_448 / 8;
const POINTER: usize = 17_432 / 8;
const STEPS: u64 = 400;

// The most stack of each call so far.
struct Measured {
    stack: Stack,
    most: [usize; 6],
}

// A slice as it crosses: address and length.
fn crossing<T>(slice: &mut [T]) -> [u64; 2] {
    [slice.as_mut_ptr() as u64, slice.len() as u64]
}

impl Measured {
    fn call(&mut self, which: usize, arguments: &[&[u64]]) -> [u64; 2] {
        // SAFETY: below, the arguments are those of the call by its declaration, and valid for as long.
        let (answer, bytes) = unsafe { self.stack.call(CALLS[which], arguments.concat()) };
        self.most[which] = self.most[which].max(bytes);
        answer
    }

    // Load, encoding, its size and run over byte slices.
    fn over_bytes(&mut self, image: &mut [u8]) {
        let (mut insts, mut labels, mut machine) = (vec![0u8; INSTS_SIZE], vec![0u8; LABELS_SIZE], vec![0u8; MACHINE_SIZE]);
        let (mut ran, mut out) = ([0u64; 3], vec![0u8; ENCODED_MAX]);
        let [image, insts, labels, machine, out] = [image, &mut insts, &mut labels, &mut machine, &mut out].map(crossing);
        let [number, count] = self.call(0, &[&image, &insts, &labels, &machine]);
        if number == 0 {
            let encoded = self.call(2, &[&image, &insts, &[count], &out]);
            assert_eq!(encoded[0], 0);
            // five arguments, and a 0 for the sixth register, which painted.rs fills too
            assert_eq!(self.call(3, &[&image, &insts, &[count, 0]]), encoded);
            let ran = ran.as_mut_ptr() as u64;
            self.call(1, &[&[ran], &image, &insts, &labels, &[count], &machine, &[STEPS], &out]);
        }
    }

    // Load and run over label records, the machine in place.
    fn over_records(&mut self, image: &mut [u8]) {
        let (mut insts, mut out) = (vec![0u8; INSTS_SIZE], vec![0u8; ENCODED_MAX]);
        let (mut labels, mut machine) = (vec![[0u64; 4]; LABEL_MAX + 1], vec![0u64; IN_PLACE]);
        let (mut loaded, mut ran) = ([0u64; 3], [0u64; 3]);
        let [image, insts, out] = [image, &mut insts, &mut out].map(crossing);
        let labels = crossing(&mut labels);
        self.call(4, &[&[loaded.as_mut_ptr() as u64], &image, &insts, &labels]);
        let [number, pointer, count] = loaded;
        if number == 0 {
            machine[POINTER] = pointer;
            let machine = machine.as_mut_ptr() as u64;
            self.call(5, &[&[ran.as_mut_ptr() as u64], &image, &insts, &labels, &[count, machine, STEPS], &out]);
        }
    }
}

// The number that the page's row for that call has in its second column, with or without commas.
fn documented(page: &str, name: &str) -> Option<usize> {
    let row = page.lines().find(|line| line.starts_with(&format!("| {name} |")))?;
    row.split('|').nth(2)?.trim().replace(',', "").parse().ok()
}

fn main() {
    let path = std::env::args().nth(1).expect("usage: oracle-stack PAGE");
    let page = std::fs::read_to_string(path).expect("the page");
    let mut measured = Measured { stack: Stack::new(), most: [0; 6] };
    let mut random = Random(1);
    let drawn: Vec<Vec<u8>> =
        (0..400).map(|i| if i % 4 == 0 { images::damaged(&mut random) } else { images::lively(&mut random) }).collect();
    for mut image in images::boundary().into_iter().chain(drawn) {
        measured.over_bytes(&mut image);
        measured.over_records(&mut image);
    }
    println!("| call | bytes of stack |\n|---|---|");
    NAMES.iter().zip(measured.most).for_each(|(name, bytes)| println!("| {name} | {bytes} |"));
    let wrong: Vec<String> = (NAMES.iter().zip(measured.most))
        .filter(|(name, bytes)| !documented(&page, name).is_some_and(|said| (*bytes..=bytes + SLACK).contains(&said)))
        .map(|(name, bytes)| {
            let said = documented(&page, name).map_or("nothing".to_string(), |said| said.to_string());
            format!("{name}: {bytes} measured, the page says {said}")
        })
        .collect();
    if !wrong.is_empty() {
        println!("{}", wrong.join("\n"));
        std::process::exit(1);
    }
}
