// The host's calls on slices of odd lengths at odd addresses, each in a block of its own: between pages that may not be touched, and in
// the heap, where valgrind sees a byte outside. What is answered and left is held to document 01, for an image whose course is known.
mod blocks;
mod known;
mod lent;
mod odd_records;
mod records;
mod stand;

use blocks::Place;
use known::Lengths;
use lent::layout::*;
use stand::{Call, Lent, Stand, INSTS, LABELS, MACHINE, OUT, SLICES};
use std::collections::{BTreeMap, BTreeSet};

/// The blocks, how many cases have each answer, and at which places modulo eight a run was lent each slice.
pub struct Odd {
    stands: [Stand; 2],
    pub answered: BTreeMap<(&'static str, u64), u64>,
    offsets: BTreeSet<(usize, usize)>,
}

/// What each byte of a slice holds before a call.
pub const FILL: u8 = 11;

// The lengths that a table may have: none, less than a record, less than a load wants, and no multiple of anything.
pub const INSTS_LENGTHS: [usize; 6] = [0, 31, INSTS_SIZE - 1, INSTS_SIZE, INSTS_SIZE + 1, INSTS_SIZE + 31];
const LABELS_LENGTHS: [usize; 6] = [0, 1, LABELS_SIZE - 1, LABELS_SIZE, LABELS_SIZE + 1, LABELS_SIZE + 31];
// The program's five records take 160 bytes.
pub const CUT_INSTS: [usize; 6] = [INSTS_SIZE, 161, 160, 159, 31, 0];
const MACHINE_LENGTHS: [usize; 4] = [0, MACHINE_SIZE - 1, MACHINE_SIZE, MACHINE_SIZE + 1];
const COUNTS: [u64; 8] = [0, 1, 2, 3, 4, 5, 6, u64::MAX];

// Each of the first with each of the second.
pub fn pairs<A: Copy, B: Copy>(first: &[A], second: &[B]) -> Vec<(A, B)> {
    first.iter().flat_map(|a| second.iter().map(|b| (*a, *b))).collect()
}

// The places of all slices where each is so many bytes past the one before it, from there on.
pub fn places(from: usize, apart: usize, place: fn(usize) -> Place) -> [Place; SLICES] {
    std::array::from_fn(|i| place(0).moved(from + i * apart))
}

impl Odd {
    // A call at the end of its blocks, at their front and in the heap: the answer and what is left have to be these.
    fn call(&mut self, name: &'static str, call: Call, lent: &Lent, answer: [u64; 3], left: &Lent, shift: usize) {
        *self.answered.entry((name, answer[0])).or_default() += 1;
        let at = [(0, places(0, 0, Place::Back)), (0, places(shift, 1, Place::Front)), (1, places(shift, 3, Place::Back))];
        for (i, places) in at {
            let got = self.stands[i].call(call, lent, places).unwrap_or_else(|what| panic!("{name}, {call:?}: {what}"));
            let lengths = lent.each_ref().map(Vec::len);
            assert_eq!(got, answer, "{name}, {call:?} on slices of {lengths:?} bytes at {places:?}");
            if name == "run" {
                self.offsets.extend((0..SLICES).map(|slice| (slice, self.stands[i].left(slice).as_ptr() as usize % 8)));
            }
            let other = (0..SLICES).find(|slice| self.stands[i].left(*slice) != left[*slice]);
            assert_eq!(other, None, "{name}, {call:?} on slices of {lengths:?} bytes at {places:?}: a slice holds something else");
        }
    }

    fn loads(&mut self) {
        let images = known::images();
        for ((insts, labels), machine) in pairs(&pairs(&INSTS_LENGTHS, &LABELS_LENGTHS), &MACHINE_LENGTHS) {
            for (image, of_image) in &images {
                let number = known::load_number(*of_image, insts, labels, machine);
                let lent = [image.clone(), vec![FILL; insts], vec![FILL; labels], vec![FILL; machine], Vec::new()];
                let mut left = lent.clone();
                if number == 0 {
                    left[INSTS] = known::insts(insts, FILL);
                    left[LABELS] = known::labels(labels, FILL);
                    left[MACHINE] = known::machine([0; 3]);
                }
                let count = if number == 0 { known::COUNT } else { 0 };
                self.call("load", Call::Load, &lent, [number, count, 0], &left, insts + labels + machine);
            }
        }
    }

    // A run of the fresh machine, on tables, image and buffer of these lengths in bytes.
    fn run(&mut self, [image, insts, labels, room]: [usize; 4], count: u64, limit: u64, shift: usize) {
        let lengths =
            Lengths { image, insts: insts / RECORD_SIZE, labels: labels / RECORD_SIZE, count, limit, room: (room / NUMBER_SIZE) as u64 };
        let answer = lengths.ran();
        let tables = (known::insts(insts, FILL), known::labels(labels, FILL));
        let lent = [known::image()[..image].to_vec(), tables.0, tables.1, known::machine([0; 3]), vec![FILL; room]];
        let mut left = lent.clone();
        left[MACHINE] = known::machine(answer);
        left[OUT] = known::dumps(answer[2], room, FILL);
        self.call("run", Call::Run { count, limit }, &lent, answer, &left, shift);
    }

    fn runs(&mut self) {
        let whole = [known::IMAGE_LEN, 160, 64, 72];
        let images = pairs(&[known::IMAGE_LEN, 40, 15, 14, 0], &[0, 15, 8 * 1_100]);
        for (insts, labels) in pairs(&CUT_INSTS, &[LABELS_SIZE, 65, 64, 63, 32, 31, 0]) {
            for (image, room) in &images {
                self.run([*image, insts, labels, *room], known::COUNT, 5_000, insts + labels);
            }
        }
        for (count, limit) in pairs(&COUNTS, &[0, 1, 2, 3, 4, 5, 9, u64::MAX]) {
            self.run(whole, count, limit, count as usize % 8);
        }
        // every slice at every place modulo eight
        let eight = [0, 1, 2, 3, 4, 5, 6, 7];
        for (longer, shift) in pairs(&eight, &eight) {
            self.run([known::IMAGE_LEN, 160 + longer, 64 + longer, 70 + longer], known::COUNT, 50, shift);
        }
    }

    // No machine: another length, or a halted byte that isn't 0 or 1. A halted one takes no step.
    fn no_machines(&mut self) {
        let ended = |machine: Vec<u8>| [known::image(), known::insts(160, FILL), known::labels(64, FILL), machine, vec![FILL; 72]];
        let call = Call::Run { count: known::COUNT, limit: 9 };
        for (shift, len) in [0, 1, MACHINE_SIZE - 1, MACHINE_SIZE + 1].into_iter().enumerate() {
            let lent = ended(vec![0; len]);
            self.call("run", call, &lent, [50, 0, 0], &lent, shift);
        }
        for halted in 1..=255 {
            let mut machine = known::machine([0; 3]);
            machine[HALTED_AT] = halted;
            let lent = ended(machine);
            self.call("run", call, &lent, [if halted == 1 { 0 } else { 50 }, 0, 0], &lent, halted as usize % 8);
        }
    }

    fn encodes(&mut self) {
        let rooms: Vec<usize> = (0..45).collect();
        for (insts, count) in pairs(&CUT_INSTS, &COUNTS) {
            for (image, room) in pairs(&[known::IMAGE_LEN, 40, 14], &rooms) {
                let answer = Lengths { image, insts: insts / RECORD_SIZE, labels: 0, count, limit: 0, room: room as u64 }.encoded();
                let lent = [known::image()[..image].to_vec(), known::insts(insts, FILL), Vec::new(), Vec::new(), vec![FILL; room]];
                let mut left = lent.clone();
                left[OUT] = known::output(answer[1], room, FILL);
                self.call("encode", Call::Encode { count }, &lent, answer, &left, room % 8);
            }
        }
    }

    // The size that an encoding with room enough has.
    fn sizes(&mut self) {
        for (insts, count) in pairs(&CUT_INSTS, &COUNTS) {
            for (image, shift) in pairs(&[known::IMAGE_LEN, 40, 14], &[0, 1, 2, 3, 4, 5, 6, 7]) {
                let answer = Lengths { image, insts: insts / RECORD_SIZE, labels: 0, count, limit: 0, room: u64::MAX }.encoded();
                let lent = [known::image()[..image].to_vec(), known::insts(insts, FILL), Vec::new(), Vec::new(), Vec::new()];
                self.call("size", Call::Size { count }, &lent, answer, &lent, shift);
            }
        }
    }
}

fn main() {
    blocks::watch();
    let mut odd = Odd { stands: [Stand::guarded(), Stand::heap()], answered: BTreeMap::new(), offsets: BTreeSet::new() };
    odd.loads();
    odd.runs();
    odd.no_machines();
    odd.encodes();
    odd.sizes();
    odd_records::all(&mut odd);
    assert_eq!(odd.offsets.len(), 8 * SLICES, "each slice of a run at each place modulo eight");
    let counts: Vec<String> = odd.answered.iter().map(|((name, number), n)| format!("{name} {number}: {n}")).collect();
    println!("odd lengths and addresses: {} calls, all as known; cases: {}", blocks::calls(), counts.join(", "));
}
