// An image that loads, read by document 01's table of operand forms and by nothing of ours: what a load has to leave for it, and what it
// is written out as.

/// What follows a first byte.
#[derive(Clone, Copy, PartialEq)]
pub enum Form {
    None,
    Eight,
    One,
    Name,
}

pub const LABEL: u8 = 21;
pub const HALT: u8 = 69;
const NATIVE: u8 = 37;
// also what 27, IDMP, loads as
const FDMP: u8 = 46;

// document 01's table
fn defined(first: u8) -> Option<Form> {
    match first {
        0 | 2..=9 | 22..=26 | 29 | 31..=36 | 38..=45 | 69 => Some(Form::None),
        1 | 10 | 11 => Some(Form::Eight),
        27 | 46 => Some(Form::One),
        12..=21 | 28 | 30 | 37 => Some(Form::Name),
        _ => None,
    }
}

/// Whether an image with that first byte can load.
pub fn loads(first: u8) -> bool {
    first != NATIVE && defined(first).is_some()
}

pub fn form(first: u8) -> Form {
    defined(first).unwrap_or_else(|| panic!("first byte {first} is undefined"))
}

/// An instruction of the image: its first byte, where it begins, and where the next one does.
pub struct Inst {
    pub first: u8,
    pub at: usize,
    pub end: usize,
}

pub struct Walk<'a> {
    pub image: &'a [u8],
    pub insts: Vec<Inst>,
}

/// Where the instruction from there on ends, by document 01's lengths. Of a length field the low 48 bits count.
pub fn end(image: &[u8], at: usize) -> usize {
    match form(image[at]) {
        Form::None => at + 1,
        Form::One => at + 2,
        Form::Eight => at + 9,
        Form::Name => at + 9 + (0..6).map(|i| usize::from(image[at + 1 + i]) << (8 * i)).sum::<usize>(),
    }
}

impl<'a> Walk<'a> {
    pub fn of(image: &'a [u8]) -> Walk<'a> {
        let (mut insts, mut at) = (Vec::new(), 0);
        while at < image.len() {
            let end = end(image, at);
            insts.push(Inst { first: image[at], at, end });
            at = end;
        }
        assert_eq!(at, image.len(), "an instruction goes past the image's end");
        Walk { image, insts }
    }

    pub fn name(&self, inst: &Inst) -> &'a [u8] {
        &self.image[inst.at + 9..inst.end]
    }

    pub fn named(&self) -> impl Iterator<Item = &Inst> {
        self.insts.iter().filter(|inst| form(inst.first) == Form::Name)
    }

    pub fn definitions(&self) -> impl Iterator<Item = &Inst> {
        self.insts.iter().filter(|inst| inst.first == LABEL)
    }

    /// Whether a load appends HALT: by the last instruction, not by the last byte.
    pub fn is_open(&self) -> bool {
        self.insts.last().is_none_or(|inst| inst.first != HALT)
    }

    /// The instructions as loaded.
    pub fn count(&self) -> usize {
        self.insts.len() + usize::from(self.is_open())
    }

    /// Where the instruction of that index begins in what is written out: as in the image, and the HALT behind it.
    pub fn start(&self, index: usize) -> usize {
        self.insts.get(index).map_or(self.image.len(), |inst| inst.at)
    }

    /// And where it ends there.
    pub fn end(&self, index: usize) -> usize {
        self.insts.get(index).map_or(self.image.len() + 1, |inst| inst.end)
    }

    /// What the image is written out as: 46 for 27, the two highest bytes of a length 0, HALT behind it where a load appends it.
    pub fn written(&self) -> Vec<u8> {
        let mut out = self.image.to_vec();
        for inst in &self.insts {
            match form(inst.first) {
                Form::One => out[inst.at] = FDMP,
                Form::Name => out[inst.at + 7..inst.at + 9].fill(0),
                _ => {}
            }
        }
        out.extend(self.is_open().then_some(HALT));
        out
    }

    fn record(&self, inst: &Inst) -> [u64; 4] {
        let first = u64::from(inst.first);
        let operand = &self.image[inst.at + 1..];
        match form(inst.first) {
            Form::None => [first, 0, 0, 0],
            Form::One => [u64::from(FDMP), u64::from(operand[0]), 0, 0],
            Form::Eight => [first, u64::from_le_bytes(operand[..8].try_into().expect("eight bytes")), 0, 0],
            Form::Name => [first, 0, inst.at as u64 + 9, self.name(inst).len() as u64],
        }
    }

    /// The instruction records that a load fills.
    pub fn records(&self) -> Vec<[u64; 4]> {
        let appended = self.is_open().then_some([u64::from(HALT), 0, 0, 0]);
        self.insts.iter().map(|inst| self.record(inst)).chain(appended).collect()
    }

    /// The label records that a load fills: the head, and each definition linked to the one before it.
    pub fn labels(&self) -> Vec<[u64; 4]> {
        let mut out = vec![[0; 4]];
        for (target, inst) in self.insts.iter().enumerate().filter(|(_, inst)| inst.first == LABEL) {
            out.push([inst.at as u64 + 9, self.name(inst).len() as u64, target as u64, out[0][3]]);
            out[0][3] += 1;
        }
        out
    }

    /// The fresh machine's pointer: the last definition of `_start`.
    pub fn pointer(&self) -> u64 {
        let is_start = |inst: &Inst| inst.first == LABEL && self.name(inst) == b"_start";
        self.insts.iter().rposition(is_start).expect("a `_start`") as u64
    }
}
