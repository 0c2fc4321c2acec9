// The two calls over label records and a machine in place, on slices of odd lengths. Label records and the machine have to be aligned;
// image, instruction table and buffer are byte slices at any address.
use crate::blocks::{count_call, Block, Place};
use crate::known::{self, Lengths};
use crate::lent::layout::*;
use crate::records::{self, Label, Machine};
use crate::{pairs, places, Odd, CUT_INSTS, FILL, INSTS_LENGTHS};

// image, instruction table, label records, machine, dump buffer
type Blocks = [Block; 5];

// Each in its block: the records and the machine at its end in the heap or before the page, the others so many bytes from there.
fn put(blocks: &mut Blocks, lent: [&[u8]; 5], shift: usize) {
    let mut at = places(shift, 3, Place::Back);
    [at[2], at[3]] = [Place::Back(0); 2];
    for (i, block) in blocks.iter_mut().enumerate() {
        block.put(lent[i], at[i]);
    }
    count_call();
}

// The label records in their bytes, and the machine.
fn records_in(bytes: &mut [u8]) -> &mut [Label] {
    // SAFETY: a record is plain numbers, and align_to gives whole structs only.
    let (before, records, behind) = unsafe { bytes.align_to_mut::<Label>() };
    assert!(before.is_empty() && behind.is_empty(), "not aligned");
    records
}

fn machine_in(bytes: &mut [u8]) -> &mut Machine {
    // SAFETY: as above, and the machine's halted byte is 0 or 1 before a call.
    let machine = unsafe { bytes.align_to_mut::<Machine>().1 };
    assert_eq!(machine.len(), 1, "not aligned");
    &mut machine[0]
}

// The answer, and what image, tables and buffer hold.
fn check(name: &str, blocks: &Blocks, got: [u64; 3], answer: [u64; 3], left: [&[u8]; 4]) {
    assert_eq!(got, answer, "{name}, by records");
    assert!(blocks.iter().all(Block::is_marked), "{name}, by records: a byte beside a slice was written");
    let kept = [0, 1, 2, 4].iter().zip(left).all(|(&i, bytes)| blocks[i].bytes() == bytes);
    assert!(kept, "{name}, by records: a slice holds something else");
}

fn loads(odd: &mut Odd, blocks: &mut Blocks) {
    for (image, of_image) in known::images() {
        for (insts, records) in pairs(&INSTS_LENGTHS, &[0, 1, 512, 513, 514]) {
            let number = known::load_number(of_image, insts, RECORD_SIZE * records, MACHINE_SIZE);
            let lent = [image.clone(), vec![FILL; insts], vec![FILL; RECORD_SIZE * records], Vec::new(), Vec::new()];
            put(blocks, lent.each_ref().map(Vec::as_slice), insts + records);
            let [image, is, ls, ..] = blocks.each_mut().map(Block::lent);
            let answer = records::load(image, is, records_in(ls));
            *odd.answered.entry(("load by records", number)).or_default() += 1;
            let loaded = (known::insts(insts, FILL), known::labels(RECORD_SIZE * records, FILL));
            let (is, ls, count) = if number == 0 { (&loaded.0, &loaded.1, known::COUNT) } else { (&lent[1], &lent[2], 0) };
            check("load", blocks, [answer.number, answer.ip, answer.count], [number, 0, count], [&lent[0], is, ls, &[]]);
        }
    }
}

fn runs(odd: &mut Odd, blocks: &mut Blocks, shift: usize) {
    for (insts, records) in pairs(&CUT_INSTS, &[513, 3, 2, 1, 0]) {
        for (cut, room) in pairs(&[0, 1, 27], &[0, 15, 8 * 1_100]) {
            let image = known::IMAGE_LEN - cut;
            let (count, limit) = (known::COUNT, 5_000);
            let answer = Lengths { image, insts: insts / RECORD_SIZE, labels: records, count, limit, room: room as u64 / 8 }.ran();
            let tables = (known::insts(insts, FILL), known::labels(RECORD_SIZE * records, FILL));
            // the image's pointer is 0, so its fresh machine is zeros
            let lent = [known::image()[..image].to_vec(), tables.0, tables.1, vec![0; size_of::<Machine>()], vec![FILL; room]];
            put(blocks, lent.each_ref().map(Vec::as_slice), shift);
            let [image, is, ls, machine, out] = blocks.each_mut().map(Block::lent);
            let machine = machine_in(machine);
            let ran = records::run(image, is, records_in(ls), count, machine, limit, out);
            *odd.answered.entry(("run in place", answer[0])).or_default() += 1;
            assert!(machine.bytes() == known::machine(answer), "run, by records: the machine holds something else");
            let dumps = known::dumps(answer[2], room, FILL);
            check("run", blocks, [ran.0, ran.1, ran.2], answer, [&lent[0], &lent[1], &lent[2], &dumps]);
        }
    }
}

pub fn all(odd: &mut Odd) {
    let rooms = [ENCODED_MAX, INSTS_SIZE + 64, LABELS_SIZE + 64, size_of::<Machine>(), 2 * ENCODED_MAX];
    for mut blocks in [rooms.map(Block::guarded), std::array::from_fn(|_| Block::heap())] {
        loads(odd, &mut blocks);
        (0..8).for_each(|shift| runs(odd, &mut blocks, shift));
    }
}
