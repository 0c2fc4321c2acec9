// Images for rewritten.rs from a seed. All of them load, by document 01; what an image is made of is drawn so that each case of
// rewritten_cases.rs comes often.
use crate::images::{lively, wide, Random};
use crate::lent::layout::{IMAGE_MAX, INST_MAX, LABEL_MAX};
use crate::walk::{form, loads, Form, Walk, HALT, LABEL};

fn first(r: &mut Random) -> u8 {
    loop {
        let first = r.next() as u8;
        if loads(first) {
            return first;
        }
    }
}

// Bits 48 to 62 of a length field: none, one or any. Without a name bit 63 may be set, too.
fn ignored(len: usize, r: &mut Random) -> u64 {
    let bits = match r.below(4) {
        0 => 1 << (48 + r.below(15)),
        1 => r.next() >> 49 << 48,
        _ => 0,
    };
    bits | u64::from(len == 0 && r.one_in(2)) << 63
}

fn named(first: u8, name: &[u8], r: &mut Random, out: &mut Vec<u8>) {
    wide(first, ignored(name.len(), r) | name.len() as u64, out);
    out.extend_from_slice(name);
}

fn ascii(len: usize, r: &mut Random) -> Vec<u8> {
    (0..len).map(|_| r.next() as u8 % 128).collect()
}

// At most 40 bytes; few different ones, so that labels are defined twice and jumped to.
fn name(r: &mut Random) -> Vec<u8> {
    match r.below(16) {
        0..=2 => Vec::new(),
        3 => b"_start".to_vec(),
        4 => r.pick(&[b"_star".as_slice(), b"_start_", b"_Start", b"E"]).to_vec(),
        5 | 6 => {
            let len = r.below(41) as usize;
            ascii(len, r)
        }
        _ => vec![b'a' + r.below(3) as u8],
    }
}

fn instruction(first: u8, r: &mut Random, out: &mut Vec<u8>) {
    match form(first) {
        Form::None => out.push(first),
        Form::Eight => wide(first, r.next(), out),
        Form::One => out.extend_from_slice(&[first, r.next() as u8]),
        Form::Name => named(first, &name(r), r, out),
    }
}

// Any instructions, at most eleven.
fn some(r: &mut Random, out: &mut Vec<u8>) {
    for _ in 0..r.below(18).saturating_sub(6) {
        instruction(first(r), r, out);
    }
}

// Any instructions with one to three definitions of `_start`, under 2,400 bytes.
fn head(r: &mut Random) -> Vec<u8> {
    let mut out = Vec::new();
    some(r, &mut out);
    for _ in 0..1 + r.below(3) {
        named(LABEL, b"_start", r, &mut out);
        some(r, &mut out);
    }
    out
}

// The last instruction: HALT, one whose operand or length ends with HALT's byte, or any.
fn tail(r: &mut Random) -> Vec<u8> {
    let mut out = Vec::new();
    match r.below(9) {
        0..=2 => out.push(HALT),
        3 => {
            let (first, name) = (r.pick(&[12, 20, LABEL, 28, 30]), [name(r), vec![HALT]].concat());
            named(first, &name, r, &mut out)
        }
        4 => wide(r.pick(&[1, 10, 11]), u64::from(HALT) << 56 | r.next() >> 8, &mut out),
        5 => out.extend_from_slice(&[r.pick(&[27, 46]), HALT]),
        6 => wide(r.pick(&[12, 20, LABEL, 28, 30]), u64::from(HALT) << 56, &mut out),
        _ => instruction(first(r), r, &mut out),
    }
    out
}

// A name, some of them behind NOPs, with which the image has its length: mostly one at the limit.
fn long(ends: &Walk, r: &mut Random) -> Vec<u8> {
    let any = 6_000 + r.below(10_000) as usize;
    let len = r.pick(&[IMAGE_MAX - 1, IMAGE_MAX - 1, IMAGE_MAX, IMAGE_MAX, any]);
    let mut out = vec![0; if r.one_in(2) { 0 } else { r.below(2_000) as usize }];
    let name = ascii(len - ends.image.len() - out.len() - 9, r);
    named(r.pick(&[20, LABEL, 28, 30]), &name, r, &mut out);
    out
}

// Instructions of one byte up to the limit, or one less; HALT is among them.
fn many(ends: &Walk, r: &mut Random) -> Vec<u8> {
    let count = r.pick(&[INST_MAX - 1, INST_MAX, INST_MAX, INST_MAX]);
    (0..count - ends.count()).map(|_| r.pick(&[0, 2, 9, 29, 45, HALT])).collect()
}

// Definitions up to the limit, or one less, with names of at most six bytes.
fn definitions(ends: &Walk, r: &mut Random) -> Vec<u8> {
    let mut out = Vec::new();
    for _ in 0..r.pick(&[LABEL_MAX - 1, LABEL_MAX, LABEL_MAX, LABEL_MAX]) - ends.definitions().count() {
        let len = r.below(3) as usize;
        let name = if r.one_in(64) { b"_start".to_vec() } else { ascii(len, r) };
        named(LABEL, &name, r, &mut out);
    }
    out
}

/// The next image.
pub fn image(r: &mut Random) -> Vec<u8> {
    if r.one_in(4) {
        return lively(r);
    }
    let (head, tail) = (head(r), tail(r));
    let ends = [head.as_slice(), &tail].concat();
    let ends = Walk::of(&ends);
    let between = match r.below(16) {
        0 | 1 => long(&ends, r),
        2 => many(&ends, r),
        3 => definitions(&ends, r),
        4..=6 => return head,
        _ => Vec::new(),
    };
    [head, between, tail].concat()
}
