// What holds of every call, whatever is lent: which answers there are, and which bytes may have changed.
use crate::lent::layout::*;
use crate::lent::{number_at, numbers, sys};
use crate::stand::{Call, Lent, Stand, INSTS, LABELS, MACHINE, OUT, SLICES};

type Held = Result<(), String>;

fn hold(holds: bool, rule: &str) -> Held {
    holds.then_some(()).ok_or_else(|| format!("this doesn't hold: {rule}"))
}

// The slices hold what they held.
fn kept(lent: &Lent, stand: &Stand, slices: impl IntoIterator<Item = usize>) -> bool {
    slices.into_iter().all(|i| stand.left(i) == lent[i])
}

// The slice holds what it held from that byte on.
fn kept_from(lent: &Lent, stand: &Stand, slice: usize, at: u64) -> bool {
    at <= lent[slice].len() as u64 && stand.left(slice)[at as usize..] == lent[slice][at as usize..]
}

fn load(lent: &Lent, stand: &Stand, [number, count, _]: [u64; 3]) -> Held {
    let no_machine = lent[MACHINE].len() != MACHINE_SIZE;
    let no_room = lent[INSTS].len() < INSTS_SIZE || lent[LABELS].len() < LABELS_SIZE;
    hold((number == 50) == no_machine, "50 exactly for another length")?;
    hold((number == 10) == (!no_machine && no_room), "10 exactly for short tables")?;
    hold((number == 1) == (!no_machine && !no_room && lent[0].len() > IMAGE_MAX), "1 exactly for a long image")?;
    if number != 0 {
        hold(matches!(number, 1..=8 | 10 | 50) && count == 0, "a refusal's number, and no count")?;
        return hold(kept(lent, stand, 0..SLICES), "a refusal writes nothing");
    }
    hold((1..=INST_MAX as u64).contains(&count), "a count from 1 to 4,096")?;
    let filled = &stand.left(INSTS)[..count as usize * RECORD_SIZE];
    let definitions = numbers(filled).step_by(4).filter(|first| *first == 21).count() as u64;
    let records = kept_from(lent, stand, INSTS, count * RECORD_SIZE as u64);
    hold(records && kept_from(lent, stand, LABELS, (definitions + 1) * RECORD_SIZE as u64), "tables kept behind their records")?;
    hold(kept(lent, stand, [0, OUT]), "a load writes no image")?;
    let (machine, pointer) = (stand.left(MACHINE), number_at(stand.left(MACHINE), POINTER_AT));
    let zero = machine[..POINTER_AT].iter().chain(&machine[FLAGS_AT..]).all(|byte| *byte == 0);
    hold(zero && pointer < count, "a fresh machine, and its pointer in the program")
}

// What the ending says of steps, cells and the halted byte.
fn ended(before: &[u8], after: &[u8], limit: u64, room: u64, [ending, steps, dumped]: [u64; 3]) -> bool {
    let halted = after[HALTED_AT] == 1;
    match ending {
        0 => halted && (before[HALTED_AT] == 1) == (steps == 0),
        1 => !halted && steps == limit,
        20..=32 => !halted && steps > 0,
        33 => !halted && steps < limit && dumped == room,
        34 => !halted && steps < limit,
        _ => false,
    }
}

fn run(lent: &Lent, stand: &Stand, limit: u64, answer: [u64; 3]) -> Held {
    let [ending, steps, dumped] = answer;
    hold(kept(lent, stand, [0, INSTS, LABELS]), "a run writes no image and no table")?;
    hold(kept_from(lent, stand, OUT, dumped.saturating_mul(8)), "the buffer is kept behind the cells dumped")?;
    hold(steps <= limit && dumped <= steps, "at most as many steps as the limit, and cells as steps")?;
    hold(steps > 0 || kept(lent, stand, [MACHINE, OUT]), "no step changes nothing")?;
    let (before, after) = (&lent[MACHINE], stand.left(MACHINE));
    let no_machine = before.len() != MACHINE_SIZE || before[HALTED_AT] > 1;
    hold((ending == 50) == no_machine, "50 exactly for what is no machine")?;
    if no_machine {
        return hold(steps == 0, "no machine takes no step");
    }
    hold(ended(before, after, limit, (lent[OUT].len() / NUMBER_SIZE) as u64, answer), "what the ending says")?;
    let fits = number_at(after, HEIGHT_AT) <= STACK_SLOTS as u64 && number_at(after, CALL_HEIGHT_AT) <= CALL_SLOTS as u64;
    hold(steps == 0 || fits, "heights within their stacks after a step")
}

fn encode(lent: &Lent, stand: &Stand, count: u64, [number, size, _]: [u64; 3]) -> Held {
    hold(matches!(number, 0 | 9 | 10), "an encoding's number")?;
    hold(number == 0 || size == 0, "a refusal has no size")?;
    hold(number == 9 || count <= (lent[INSTS].len() / RECORD_SIZE) as u64, "9 for a count past its table")?;
    hold(kept(lent, stand, 0..OUT), "an encoding writes only its output")?;
    hold(kept_from(lent, stand, OUT, size), "the output is kept behind its size")?;
    let room = sys::encoded_size(&lent[0], &lent[INSTS], count);
    let short = room.number == 0 && (lent[OUT].len() as u64) < room.size;
    let asked = if short { [10, 0] } else { [room.number, room.size] };
    hold([number, size] == asked, "an encoding answers what its size does, or 10 where the output is shorter")
}

fn size(lent: &Lent, stand: &Stand, count: u64, [number, size, _]: [u64; 3]) -> Held {
    hold(matches!(number, 0 | 9) && (number == 0 || size == 0), "a size, or 9 without one")?;
    hold(kept(lent, stand, 0..SLICES), "a size writes nothing")?;
    let encoded = |room: u64| {
        let sys::Encoded { number, size } = sys::encode(&lent[0], &lent[INSTS], count, &mut vec![0; room as usize]);
        [number, size]
    };
    hold(encoded(size) == [number, size], "an output of that size is long enough, or 9 for both")?;
    hold(size == 0 || encoded(size - 1) == [10, 0], "10 for one byte less")
}

pub fn all(call: Call, lent: &Lent, stand: &Stand, answer: [u64; 3]) -> Held {
    match call {
        Call::Load => load(lent, stand, answer),
        Call::Run { limit, .. } => run(lent, stand, limit, answer),
        Call::Encode { count } => encode(lent, stand, count, answer),
        Call::Size { count } => size(lent, stand, count, answer),
    }
}
