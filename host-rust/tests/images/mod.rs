// Small images, made of instructions.

pub fn named(first: u8, name: &str) -> Vec<u8> {
    [&[first], (name.len() as u64).to_le_bytes().as_slice(), name.as_bytes()].concat()
}

pub fn push(cell: u64) -> Vec<u8> {
    [&[1], cell.to_le_bytes().as_slice()].concat()
}

/// LABEL `_start`, and these instructions behind it.
pub fn image(rest: &[Vec<u8>]) -> Vec<u8> {
    [named(21, "_start"), rest.concat()].concat()
}

/// The cell of an integer that isn't below zero.
pub fn int(value: u64) -> u64 {
    0x7FF2_0000_0000_0000 | value
}

/// Three dumps of the cell 5, and a trap behind them: POP, POP. Its first dump is the third step, its trap the seventh.
pub fn three_dumps() -> Vec<u8> {
    image(&[push(int(5)), vec![27, 1, 27, 1, 27, 1, 2, 2]])
}
