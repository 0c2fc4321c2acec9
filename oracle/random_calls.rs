// Random calls: programs as a load leaves them with a few bytes damaged, machines near their limits, and wholly random bytes.
use crate::images::{self, Random};
use crate::lent::layout::*;
use crate::lent::{put_number, Program};
use crate::stand::{Call, Lent};

// Tables that a run reads are cut to what the program fills, and a little more.
struct Loaded {
    image: Vec<u8>,
    insts: Vec<u8>,
    labels: Vec<u8>,
    count: u64,
}

pub struct Calls {
    pub random: Random,
    noise: Vec<u8>,
    programs: Vec<Loaded>,
    machines: Vec<Vec<u8>>,
    boundary: Vec<Vec<u8>>,
}

// A cell: mostly a small number of some type, of either sign.
fn cell(random: &mut Random) -> u64 {
    let top = random.pick(&[0x7FF2, 0x7FF2, 0x7FF2, 0xFFF2, 0x7FF3, 0x7FF3, 0xFFF3, 0x7FF4, 0x7FF5, 0x7FF8, 0xFFF8, 0x3FF0, 0xC059, 0]);
    match random.below(6) {
        0 => random.next(),
        1 => top << 48 | random.next() >> 16,
        2 => top << 48,
        _ => top << 48 | random.below(1_030),
    }
}

// A machine that isn't halted, with something in every slot.
fn machine(random: &mut Random) -> Vec<u8> {
    let mut out = vec![0; MACHINE_SIZE];
    (0..STACK_SLOTS).for_each(|i| put_number(&mut out, STACK_AT + NUMBER_SIZE * i, cell(random)));
    (0..CALL_SLOTS).for_each(|i| put_number(&mut out, CALLS_AT + NUMBER_SIZE * i, random.below(60)));
    out[MEMORY_AT..HEIGHT_AT].fill_with(|| random.next() as u8);
    out
}

fn program(random: &mut Random) -> Loaded {
    loop {
        let image = images::lively(random);
        if let Ok((Program { mut insts, mut labels, count, .. }, _)) = Program::load(&image) {
            let definitions = images::firsts(&image).iter().filter(|first| **first == 21).count();
            insts.truncate((count as usize + 1) * RECORD_SIZE);
            labels.truncate((definitions + 2) * RECORD_SIZE);
            return Loaded { image, insts, labels, count };
        }
    }
}

impl Calls {
    pub fn new(seed: u64) -> Calls {
        let mut random = Random(seed);
        let noise = (0..INSTS_SIZE + 4_096).map(|_| random.next() as u8).collect();
        let programs = (0..500).map(|_| program(&mut random)).collect();
        let machines = (0..32).map(|_| machine(&mut random)).collect();
        Calls { random, noise, programs, machines, boundary: images::boundary() }
    }

    pub fn next(&mut self) -> (Call, Lent) {
        match self.random.below(32) {
            0 => self.load(),
            1..=4 => self.encode(),
            5 | 6 => self.size(),
            _ => self.run(),
        }
    }

    // So many random bytes.
    fn bytes(&mut self, len: usize) -> Vec<u8> {
        let at = self.random.below((self.noise.len() - len) as u64) as usize;
        self.noise[at..at + len].to_vec()
    }

    fn below(&mut self, n: usize) -> usize {
        self.random.below(n as u64) as usize
    }

    // Mostly the length given; one or a few bytes off in one case of so many.
    fn near(&mut self, len: usize, one_in: u64) -> usize {
        if !self.random.one_in(one_in) {
            len
        } else if self.random.one_in(4) {
            self.below(len + 1)
        } else {
            len + self.below(40) - 8.min(len)
        }
    }

    fn image(&mut self) -> Vec<u8> {
        match self.random.below(32) {
            0 => self.boundary[self.random.below(self.boundary.len() as u64) as usize].clone(),
            1..=3 => {
                let len = self.below(200);
                self.bytes(len)
            }
            4..=8 => images::short(self.random.below(images::SHORT)),
            9 => {
                let mut image = images::lively(&mut self.random);
                images::named(37, b"native", &mut image);
                image
            }
            10..=20 => images::damaged(&mut self.random),
            _ => images::lively(&mut self.random),
        }
    }

    fn load(&mut self) -> (Call, Lent) {
        let lengths = [self.near(INSTS_SIZE, 8), self.near(LABELS_SIZE, 8), self.near(MACHINE_SIZE, 16)];
        (Call::Load, [self.image(), self.bytes(lengths[0]), self.bytes(lengths[1]), self.bytes(lengths[2]), Vec::new()])
    }

    // A program of the stock: image, both tables and the count.
    fn loaded(&mut self) -> ([Vec<u8>; 3], u64) {
        if self.random.one_in(20) {
            let lengths = [self.below(200), self.below(400), self.below(400)];
            return (lengths.map(|len| self.bytes(len)), self.random.below(12));
        }
        let at = self.below(self.programs.len());
        let Loaded { image, insts, labels, count } = &self.programs[at];
        ([image, insts, labels].map(Vec::clone), *count)
    }

    // A few bytes of image or tables changed, a number of a table replaced, or a slice cut.
    fn damage(&mut self, slices: &mut [Vec<u8>; 3], count: &mut u64) {
        for _ in 0..self.random.below(3) {
            let number = if self.random.one_in(2) { self.random.below(40) } else { self.random.next() };
            let slice = self.below(3);
            let at = self.below(slices[slice].len().max(1));
            let bytes = &mut slices[slice];
            let aligned = at.min(bytes.len().saturating_sub(NUMBER_SIZE)) / NUMBER_SIZE * NUMBER_SIZE;
            match self.random.below(6) {
                0 => *count = number,
                1 => bytes.truncate(at),
                2 if slice > 0 && bytes.len() >= NUMBER_SIZE => put_number(bytes, aligned, number),
                3 => bytes.extend_from_slice(&number.to_le_bytes()),
                _ if at < bytes.len() => bytes[at] ^= 1 << self.random.below(8),
                _ => {}
            }
        }
    }

    // A height: at its limits, or with a few cells.
    fn height(&mut self) -> u64 {
        match self.random.below(16) {
            0 => self.random.next(),
            1 | 2 => 1_022 + self.random.below(4),
            3 => self.random.below(1_024),
            _ => self.random.below(8),
        }
    }

    fn machine(&mut self, count: u64) -> Vec<u8> {
        let which = self.below(self.machines.len());
        let mut out = self.machines[which].clone();
        let (height, calls) = (self.height(), self.height());
        put_number(&mut out, HEIGHT_AT, height);
        put_number(&mut out, CALL_HEIGHT_AT, calls);
        let pointer = if self.random.one_in(64) { self.random.next() } else { self.random.below(count.saturating_add(1).min(4_097)) };
        put_number(&mut out, POINTER_AT, pointer);
        for i in height.saturating_sub(3)..height.min(STACK_SLOTS as u64) {
            let cell = cell(&mut self.random);
            put_number(&mut out, STACK_AT + NUMBER_SIZE * i as usize, cell);
        }
        out[FLAGS_AT] = self.random.next() as u8;
        out[HALTED_AT] = if self.random.one_in(16) { self.random.pick(&[1, 1, 1, 2, 3, 128, 255]) } else { 0 };
        let len = self.near(MACHINE_SIZE, 64);
        out.resize(len, 0);
        out
    }

    fn run(&mut self) -> (Call, Lent) {
        let (mut slices, mut count) = self.loaded();
        let machine = self.machine(count);
        if self.random.one_in(3) {
            self.damage(&mut slices, &mut count);
        }
        let limit = match self.random.below(16) {
            0 => self.random.below(500),
            1 => self.random.next() % 5_000,
            _ => self.random.below(8),
        };
        let room = self.below(40);
        let [image, insts, labels] = slices;
        (Call::Run { count, limit }, [image, insts, labels, machine, self.bytes(room)])
    }

    // A program whose table may be damaged: image, instruction table and count.
    fn written(&mut self) -> ([Vec<u8>; 2], u64) {
        let (mut slices, mut count) = self.loaded();
        if self.random.one_in(2) {
            self.damage(&mut slices, &mut count);
        }
        let [image, insts, _] = slices;
        ([image, insts], count)
    }

    fn encode(&mut self) -> (Call, Lent) {
        let ([image, insts], count) = self.written();
        let room = self.near(image.len() + 1, 3);
        (Call::Encode { count }, [image, insts, Vec::new(), Vec::new(), self.bytes(room)])
    }

    fn size(&mut self) -> (Call, Lent) {
        let ([image, insts], count) = self.written();
        (Call::Size { count }, [image, insts, Vec::new(), Vec::new(), Vec::new()])
    }
}
