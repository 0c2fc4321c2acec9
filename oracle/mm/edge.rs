// Where document 01's domain ends at a step: why the comparison stops there, and what ours has to answer by document 01 and, at a plain
// NaN (8 in bits 48 to 51), by request a of document 02.
#[derive(Clone, Copy)]
pub enum Edge {
    UnknownType,
    PlainNaNToZero,
    PlainNaNWrongType,
    PlainNaNNotI64,
    Stream,
    Stack,
    Calls,
    NaN,
}

impl Edge {
    pub const ALL: [Edge; 8] = [
        Edge::UnknownType,
        Edge::PlainNaNToZero,
        Edge::PlainNaNWrongType,
        Edge::PlainNaNNotI64,
        Edge::Stream,
        Edge::Stack,
        Edge::Calls,
        Edge::NaN,
    ];

    pub fn why(self) -> &'static str {
        match self {
            Edge::UnknownType => "31, an operand of unknown type: the Rust panics",
            Edge::PlainNaNToZero => "F2I or F2U of a plain NaN, for which the Rust, which panics, gets document 02's 0",
            Edge::PlainNaNWrongType => "28, another conversion of a plain NaN: the Rust panics",
            Edge::PlainNaNNotI64 => "30, an integer operation on a plain NaN: the Rust panics",
            Edge::Stream => "32, a stream that isn't 1 or 2: the Rust panics",
            Edge::Stack => "21, a stack over 1,024",
            Edge::Calls => "23, a call stack over 1,024",
            Edge::NaN => "a float result that is a NaN, for which the Rust gets document 01's",
        }
    }

    // What a run of limit 1 ends with there: a trap, or the limit where the step succeeds.
    pub fn ending(self) -> u64 {
        match self {
            Edge::UnknownType => 31,
            Edge::PlainNaNWrongType => 28,
            Edge::PlainNaNNotI64 => 30,
            Edge::Stream => 32,
            Edge::Stack => 21,
            Edge::Calls => 23,
            Edge::PlainNaNToZero | Edge::NaN => 1,
        }
    }

    // Whether the Rust is left with the state that the documents say: a panic comes behind the pops, and where the step succeeds the
    // Rust got the cell.
    pub fn has_state(self) -> bool {
        !matches!(self, Edge::Stack | Edge::Calls)
    }
}
