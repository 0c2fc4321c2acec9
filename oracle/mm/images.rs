// The images of the comparison. Listed: those at document 01's limits, the short ones, and cells of each type at each instruction that looks
// at it. From a seed: random ones that live long, and damaged copies.

pub struct Random(pub u64);

impl Random {
    // splitmix64
    pub fn next(&mut self) -> u64 {
        self.0 = self.0.wrapping_add(0x9E37_79B9_7F4A_7C15);
        let mut z = self.0;
        z = (z ^ (z >> 30)).wrapping_mul(0xBF58_476D_1CE4_E5B9);
        z = (z ^ (z >> 27)).wrapping_mul(0x94D0_49BB_1331_11EB);
        z ^ (z >> 31)
    }

    pub fn below(&mut self, n: u64) -> u64 {
        self.next() % n
    }

    pub fn one_in(&mut self, n: u64) -> bool {
        self.below(n) == 0
    }

    pub fn pick<T: Copy>(&mut self, from: &[T]) -> T {
        from[self.below(from.len() as u64) as usize]
    }
}

pub fn named(op: u8, name: &[u8], out: &mut Vec<u8>) {
    out.push(op);
    out.extend_from_slice(&(name.len() as u64).to_le_bytes());
    out.extend_from_slice(name);
}

pub fn wide(op: u8, number: u64, out: &mut Vec<u8>) {
    out.push(op);
    out.extend_from_slice(&number.to_le_bytes());
}

pub fn started() -> Vec<u8> {
    let mut out = Vec::new();
    named(21, b"_start", &mut out);
    out
}

// What the generator believes of the cell on top; a jump may have led elsewhere.
#[derive(Clone, Copy, PartialEq)]
enum Kind {
    Float,
    Whole,
    Address,
}

const I64: u64 = 0x7FF2 << 48;
const U64: u64 = 0x7FF3 << 48;

fn magnitude(r: &mut Random) -> u64 {
    match r.below(6) {
        0 => 0,
        1 => 1 + r.below(10),
        2 => r.below(2048),
        3 => r.next() >> 16,
        4 => (1 << 48) - 1 - r.below(3),
        _ => 1 << r.below(48),
    }
}

// Mostly ordinary numbers: infinities and the largest ones soon lead to a NaN, and out of the domain.
fn float(r: &mut Random) -> u64 {
    match r.below(24) {
        0 => 0x8000_0000_0000_0000 & r.next(),
        1 => 1 + r.below(5),
        2 => f64::INFINITY.to_bits() | 0x8000_0000_0000_0000 & r.next(),
        3 => f64::MAX.to_bits() - r.below(3),
        4 => r.next(),
        5 => (r.next() as f64).to_bits(),
        n if n < 14 => (0.1 * r.below(100) as f64).to_bits(),
        _ => (r.below(2000) as f64 - 1000.0).to_bits(),
    }
}

fn cell(kind: Kind, r: &mut Random) -> u64 {
    match kind {
        Kind::Float => float(r),
        Kind::Whole if r.one_in(8) => U64 | magnitude(r) | 0x8000_0000_0000_0000 & r.next(),
        Kind::Whole => I64 | magnitude(r) | 0x8000_0000_0000_0000 & r.next(),
        Kind::Address => {
            let size = if r.one_in(20) { 1100 } else { 1024 };
            U64 | r.below(size)
        }
    }
}

struct Generator<'a> {
    out: Vec<u8>,
    kinds: Vec<Kind>,
    labels: u64,
    r: &'a mut Random,
}

impl Generator<'_> {
    fn is(&self, depth: usize, kind: Kind) -> bool {
        self.kinds.len() > depth && self.kinds[self.kinds.len() - 1 - depth] == kind
    }

    fn push(&mut self, kind: Kind) {
        let cell = cell(kind, self.r);
        wide(1, cell, &mut self.out);
        self.kinds.push(kind);
    }

    fn replace(&mut self, pops: usize, op: u8, kind: Kind) {
        self.out.push(op);
        self.kinds.truncate(self.kinds.len() - pops);
        self.kinds.push(kind);
    }

    // One of the family drawn where the stack has what it needs, and a PUSH otherwise. Most succeed.
    fn instruction(&mut self) {
        let family = self.r.below(15);
        let made = match family {
            0..=4 => self.arithmetic(family),
            5 | 6 => self.conversion(family),
            7 | 8 => self.memory(family),
            _ => self.cells(family),
        };
        if !made {
            let kind = self.r.pick(&[Kind::Float, Kind::Whole, Kind::Whole, Kind::Address]);
            self.push(kind)
        }
    }

    fn arithmetic(&mut self, family: u64) -> bool {
        match family {
            0 | 1 if self.is(0, Kind::Whole) && self.is(1, Kind::Whole) => {
                let families = if self.r.one_in(10) { 4 } else { 3 };
                let op = 5 + self.r.below(families) as u8;
                self.replace(2, op, Kind::Whole)
            }
            2 if self.is(0, Kind::Whole) => {
                wide(1, I64 | (1 + self.r.below(9)), &mut self.out);
                self.kinds.push(Kind::Whole);
                self.replace(2, 8, Kind::Whole)
            }
            3 | 4 if self.is(0, Kind::Float) && self.is(1, Kind::Float) => {
                let op = 23 + self.r.below(4) as u8;
                self.replace(2, op, Kind::Float)
            }
            _ => return false,
        }
        true
    }

    fn conversion(&mut self, family: u64) -> bool {
        match family {
            5 if self.is(0, Kind::Float) => {
                let op = if self.r.one_in(5) { 32 } else { 31 };
                self.replace(1, op, Kind::Whole)
            }
            6 if self.is(0, Kind::Whole) => {
                let op = if self.r.one_in(5) { 33 + self.r.below(2) as u8 } else { 35 + self.r.below(2) as u8 };
                self.replace(1, op, if op == 33 || op == 36 { Kind::Float } else { Kind::Whole })
            }
            _ => return false,
        }
        true
    }

    fn memory(&mut self, family: u64) -> bool {
        match family {
            7 if self.is(0, Kind::Address) => {
                let op = 38 + 2 * self.r.below(4) as u8;
                self.replace(1, op, Kind::Address)
            }
            8 if self.is(1, Kind::Address) => {
                self.out.push(39 + 2 * self.r.below(4) as u8);
                self.kinds.truncate(self.kinds.len() - 2);
            }
            _ => return false,
        }
        true
    }

    // CMP, INC and DEC, DUP, SWAP, BOT and the dumps: they take cells of any kind.
    fn cells(&mut self, family: u64) -> bool {
        let n = self.kinds.len();
        match family {
            9 if n >= 2 => {
                self.out.push(9);
                self.kinds.pop();
            }
            10 if n >= 1 => {
                let op = 3 + self.r.below(2) as u8;
                self.replace(1, op, Kind::Whole)
            }
            11 if n >= 1 => {
                let depth = self.r.below(n as u64);
                wide(11, depth, &mut self.out);
                self.kinds.push(self.kinds[n - 1 - depth as usize]);
            }
            12 if n >= 1 => {
                let depth = self.r.below(n as u64);
                wide(10, depth, &mut self.out);
                self.kinds.swap(n - 1, n - 1 - depth as usize);
            }
            13 if n >= 1 => {
                self.out.push(22);
                self.kinds.push(self.kinds[0]);
            }
            14 if n >= 1 => {
                let op = self.r.pick(&[27, 46]);
                self.out.extend_from_slice(&[op, 1 + self.r.below(2) as u8]);
            }
            _ => return false,
        }
        true
    }

    // Any instruction, whatever is on the stack.
    fn careless(&mut self) {
        match self.r.below(5) {
            0 => {
                let op = self
                    .r
                    .pick(&[0, 2, 3, 4, 5, 6, 7, 8, 9, 22, 23, 24, 25, 26, 29, 31, 32, 33, 34, 35, 36, 38, 39, 40, 41, 42, 43, 44, 45, 69]);
                self.out.push(op)
            }
            1 => {
                let (op, depth) = (self.r.pick(&[10, 11]), self.r.below(8));
                wide(op, depth, &mut self.out)
            }
            2 => {
                let op = self.r.pick(&[12, 20, 28, 30]);
                named(op, b"nowhere", &mut self.out)
            }
            3 => {
                let (op, stream) = (self.r.pick(&[27, 46]), self.r.below(4) as u8);
                self.out.extend_from_slice(&[op, stream])
            }
            _ => wide(1, self.r.next(), &mut self.out),
        }
    }

    // Back to the kinds that there were: extra cells popped, missing ones pushed.
    fn restore(&mut self, kinds: &[Kind]) {
        let same = self.kinds.iter().zip(kinds).take_while(|(a, b)| a == b).count();
        while self.kinds.len() > same {
            self.out.push(2);
            self.kinds.pop();
        }
        for kind in &kinds[same..] {
            self.push(*kind);
        }
    }

    fn fresh_name(&mut self) -> Vec<u8> {
        self.labels += 1;
        format!("l{}", self.labels).into_bytes()
    }

    // Instructions that leave the kinds as they were, some of them behind a conditional jump, with calls of f.
    fn block(&mut self, size: u64, calls: bool) {
        let kinds = self.kinds.clone();
        for _ in 0..size {
            match self.r.below(12) {
                0 if self.kinds.len() >= 2 => {
                    let skip = self.fresh_name();
                    self.out.push(9);
                    self.kinds.pop();
                    let op = 12 + self.r.below(8) as u8;
                    named(op, &skip, &mut self.out);
                    let inner = self.kinds.clone();
                    for _ in 0..self.r.below(4) {
                        self.instruction();
                    }
                    self.restore(&inner);
                    named(21, &skip, &mut self.out);
                }
                1 if calls => named(28, b"f", &mut self.out),
                2 if self.r.one_in(3) => {
                    let op = self.r.pick(&[0, 30]);
                    if op == 0 {
                        self.out.push(0)
                    } else {
                        named(30, b"puts", &mut self.out)
                    }
                }
                _ => self.instruction(),
            }
        }
        self.restore(&kinds);
    }
}

// Typed cells, a loop, calls of a function; in one image of three an instruction drawn without regard to the stack.
pub fn lively(r: &mut Random) -> Vec<u8> {
    let mut g = Generator { out: Vec::new(), kinds: Vec::new(), labels: 0, r };
    let calls = g.r.one_in(2);
    let careless = g.r.one_in(3);
    if g.r.one_in(4) {
        named(21, b"_start", &mut g.out);
        g.out.push(69);
    }
    named(21, b"_start", &mut g.out);
    for _ in 0..2 + g.r.below(4) {
        let kind = g.r.pick(&[Kind::Float, Kind::Whole, Kind::Address]);
        g.push(kind);
    }
    named(21, b"", &mut g.out);
    let size = 2 + g.r.below(14);
    g.block(size, calls);
    if careless {
        g.careless();
    }
    let back = if g.r.one_in(3) { 12 + g.r.below(8) as u8 } else { 20 };
    let to = if g.r.one_in(8) { b"_start".as_slice() } else { b"" };
    named(back, to, &mut g.out);
    if calls {
        named(20, b"end", &mut g.out);
        named(21, b"f", &mut g.out);
        let size = g.r.below(5);
        g.block(size, false);
        g.out.push(29);
        named(21, b"end", &mut g.out);
    }
    g.out
}

// A good image with a few bytes changed, lost or added.
pub fn damaged(r: &mut Random) -> Vec<u8> {
    let mut image = lively(r);
    for _ in 0..1 + r.below(3) {
        let at = r.below(image.len() as u64) as usize;
        match r.below(4) {
            0 => image[at] = r.next() as u8,
            1 => image[at] ^= 1 << r.below(8),
            2 => image.truncate(at + 1),
            _ => image.insert(at, r.next() as u8),
        }
    }
    image
}

// The k-th of the images of `_start` and at most two bytes behind it: 1 + 256 + 65,536.
pub const SHORT: u64 = 1 + 256 + 65_536;

pub fn short(k: u64) -> Vec<u8> {
    let mut image = started();
    if k > 256 {
        image.extend_from_slice(&((k - 257) as u16).to_le_bytes());
    } else if k > 0 {
        image.push((k - 1) as u8);
    }
    image
}

// The k-th of the cells with an exponent of ones: either sign, 0 to 15 in bits 48 to 51, 0 or 5 below. With nothing but 0 there it is an infinity.
const TAGGED: u64 = 2 * 16 * 2;

fn tagged(k: u64) -> u64 {
    let (sign, tag, below) = (k % 2, k / 2 % 16, k / 32 % 2 * 5);
    sign << 63 | 0x7FF0 << 48 | tag << 48 | below
}

// The k-th of the images that convert one such cell, or take two of them for an integer operation.
const CONVERTED: u64 = 6 * TAGGED;
pub const TYPED: u64 = CONVERTED + 4 * TAGGED * TAGGED;

pub fn typed(k: u64) -> Vec<u8> {
    let mut image = started();
    if k < CONVERTED {
        wide(1, tagged(k % TAGGED), &mut image);
        image.push(31 + (k / TAGGED) as u8);
    } else {
        let pair = (k - CONVERTED) % (TAGGED * TAGGED);
        wide(1, tagged(pair % TAGGED), &mut image);
        wide(1, tagged(pair / TAGGED), &mut image);
        image.push(5 + ((k - CONVERTED) / (TAGGED * TAGGED)) as u8);
    }
    image
}

// `_start`, a name by which the image has that length, and what is behind it.
fn long(len: usize, op: u8, end: &[u8]) -> Vec<u8> {
    let mut image = started();
    named(op, &vec![b'x'; len - 15 - 9 - end.len()], &mut image);
    image.extend_from_slice(end);
    image
}

// At document 01's limits, and just past them where the Rust has no limit.
pub fn boundary() -> Vec<Vec<u8>> {
    let with = |f: &dyn Fn(&mut Vec<u8>)| {
        let mut image = started();
        f(&mut image);
        image
    };
    let many = |n: usize, bytes: &[u8]| with(&|out: &mut Vec<u8>| (0..n).for_each(|_| out.extend_from_slice(bytes)));
    let mut label = Vec::new();
    named(21, b"", &mut label);
    let mut call = started();
    named(28, b"_start", &mut call);
    vec![
        many(4_093, &[0]),
        many(4_094, &[0]),
        many(4_095, &[0]),
        many(511, &label),
        many(512, &label),
        many(16_384 - 15, &[0]),
        many(16_385 - 15, &[0]),
        long(16_384, 21, &[]),
        long(16_384, 20, &[]),
        with(&|out: &mut Vec<u8>| {
            named(21, b"", out);
            named(20, b"", out)
        }),
        with(&|out: &mut Vec<u8>| (0..1_024).for_each(|i| wide(1, I64 | i, out))),
        with(&|out: &mut Vec<u8>| {
            (0..1_024).for_each(|i| wide(1, I64 | i, out));
            out.extend_from_slice(&[5, 22, 22])
        }),
        call,
        long(16_383, 30, &[]),
        long(16_383, 30, &[69]),
        long(16_384, 30, &[27, 1]),
        long(16_384, 30, &[69]),
        [many(4_094, &[0]), vec![69]].concat(),
    ]
}

// Where each instruction of an image begins, as far as it can be read.
pub fn instructions(image: &[u8]) -> Vec<usize> {
    let (mut starts, mut at) = (Vec::new(), 0);
    while at < image.len() {
        starts.push(at);
        at += match image[at] {
            1 | 10 | 11 => 9,
            27 | 46 => 2,
            first if is_named(first) => 9 + image.get(at + 1..at + 3).map_or(0, |b| b[0] as usize + 256 * b[1] as usize),
            _ => 1,
        };
    }
    starts.push(image.len());
    starts
}

// The first byte of each instruction.
pub fn firsts(image: &[u8]) -> Vec<u8> {
    instructions(image).iter().filter_map(|at| image.get(*at).copied()).collect()
}

// Whether an instruction with that first byte has a name.
pub fn is_named(first: u8) -> bool {
    matches!(first, 12..=21 | 28 | 30 | 37)
}

// Whether a name has a byte of 128 or more: document 01's number 4, which the original doesn't have.
pub fn has_high_name(image: &[u8]) -> bool {
    instructions(image).windows(2).any(|w| {
        let named = image.get(w[0]).is_some_and(|first| is_named(*first));
        named && image[(w[0] + 9).min(image.len())..w[1].min(image.len())].iter().any(|b| *b >= 128)
    })
}

// Whether a length field has bit 63 set and a magnitude that isn't 0, where the original panics.
pub fn has_negative_length(image: &[u8]) -> bool {
    instructions(image).into_iter().any(|at| match image.get(at..at + 9) {
        Some([first, magnitude @ .., _, sign]) => is_named(*first) && *sign >= 128 && magnitude.iter().any(|b| *b != 0),
        _ => false,
    })
}
