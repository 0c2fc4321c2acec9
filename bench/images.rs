// The benchmark's images.

pub struct Program(pub Vec<u8>);

impl Program {
    pub fn started() -> Program {
        Program(Vec::new()).name(21, "_start")
    }

    pub fn op(mut self, op: u8) -> Program {
        self.0.push(op);
        self
    }

    pub fn push(mut self, cell: u64) -> Program {
        self.0.push(1);
        self.0.extend_from_slice(&cell.to_le_bytes());
        self
    }

    fn dup(mut self, depth: u64) -> Program {
        self.0.push(11);
        self.0.extend_from_slice(&depth.to_le_bytes());
        self
    }

    pub fn int(self, value: u64) -> Program {
        self.push(0x7FF2 << 48 | value)
    }

    fn float(self, value: f64) -> Program {
        self.push(value.to_bits())
    }

    pub fn name(mut self, op: u8, name: &str) -> Program {
        self.0.push(op);
        self.0.extend_from_slice(&(name.len() as u64).to_le_bytes());
        self.0.extend_from_slice(name.as_bytes());
        self
    }

    pub fn label(self, name: &str) -> Program {
        self.name(21, name)
    }

    // labels that nothing jumps to; those behind are found first
    pub fn labels(mut self, many: usize) -> Program {
        for i in 0..many {
            self = self.label(&format!("unused{i}"));
        }
        self
    }
}

pub const JMP: u8 = 20;
const JNE: u8 = 17;
const JL: u8 = 13;
const CALL: u8 = 28;

fn jump() -> Program {
    Program::started().label("a").name(JMP, "b").label("c").name(JMP, "a").label("b").name(JMP, "c")
}

fn calls() -> Program {
    Program::started().label("l").name(CALL, "f").name(JMP, "l").label("f").op(29)
}

fn integer() -> Program {
    Program::started().int(1).label("l").int(3).op(5).int(2).op(7).int(7).op(6).int(2).op(8).op(3).op(4).name(JMP, "l")
}

fn float() -> Program {
    let begun = Program::started().float(1.5).label("l");
    begun.float(0.25).op(23).float(1.5).op(25).float(0.25).op(24).float(1.5).op(26).name(JMP, "l")
}

fn memory() -> Program {
    Program::started().label("l").int(9).int(77).op(39).int(9).op(38).op(2).name(JMP, "l")
}

fn conversions() -> Program {
    Program::started().float(3.75).label("l").op(31).op(33).op(32).op(36).name(JMP, "l")
}

// A state modulo 2^48 that is multiplied and added to, and a jump on a comparison of it with a half.
fn branches() -> Program {
    let stated = Program::started().int(1).label("l").int(0x5DEECE66D).op(7).int(11).op(5);
    stated.dup(0).int(0x800000000000).op(9).op(2).name(JL, "less").op(0).label("less").name(JMP, "l")
}

fn mixed() -> Program {
    let counted = Program::started().int(0).label("l").op(3).dup(0).int(1000).op(9).op(2).name(JNE, "l");
    counted.op(2).int(0).name(CALL, "f").name(JMP, "l").label("f").float(0.5).op(2).op(29)
}

// Each goes round for ever.
pub fn images() -> Vec<(&'static str, Program)> {
    vec![
        ("jump", jump()),
        ("jump, 50 labels", jump().labels(50)),
        ("jump, 500 labels", jump().labels(500)),
        ("integer", integer()),
        ("float", float()),
        ("calls", calls()),
        ("calls, 50 labels", calls().labels(50)),
        ("calls, 500 labels", calls().labels(500)),
        ("memory", memory()),
        ("conversions", conversions()),
        ("branches", branches()),
        ("mixed", mixed()),
    ]
}

// Every third step is a dump of the top cell to stream 1; it goes round for ever.
pub fn dumps() -> Program {
    let mut p = Program::started().int(5).label("l");
    for _ in 0..30 {
        p = p.op(0).op(3).op(27).op(1);
    }
    p.name(JMP, "l")
}

// Straight code that runs once: so many instructions, a few of each kind.
pub fn straight(many: usize) -> Program {
    let mut p = Program::started();
    for i in 0..many {
        p = match i % 8 {
            0 | 2 => p.int(i as u64 % 100),
            1 | 3 => p.op(3),
            4 => p.op(5),
            5 => p.dup(0),
            6 => p.op(9),
            _ => p.op(2),
        };
    }
    p
}

// A loop of so many instructions, one of them a jump.
pub fn round(many: usize) -> Program {
    (4..many).fold(Program::started().int(0).label("l"), |p, i| p.op(3 + i as u8 % 2)).name(JMP, "l")
}
