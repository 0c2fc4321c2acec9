// The lent layer: memory at every address from a multiple of eight on, tables and buffers of odd lengths, and what is left as it was.
mod images;

use images::{image, int, push, three_dumps};
use mm_host::layout::{HALTED_AT, INSTS_SIZE, LABELS_SIZE, MACHINE_SIZE};
use mm_host::lent::{Machine, Program};
use mm_host::{Ending, NotAMachine, Refusal, Trap};

// A buffer in which a slice of this length starts at every place from 0 to 15, so at every address modulo eight.
fn placed<T>(len: usize, fill: u8, mut each: impl FnMut(&mut [u8]) -> T) -> Vec<T> {
    let mut memory = vec![fill; len + 15];
    let mut all = Vec::new();
    for at in 0..16 {
        memory.fill(fill);
        all.push(each(&mut memory[at..at + len]));
        assert!(memory[..at].iter().chain(&memory[at + len..]).all(|&byte| byte == fill), "a byte beside the slice was written");
    }
    all
}

fn machine_bytes() -> [u8; MACHINE_SIZE] {
    [0xAA; MACHINE_SIZE]
}

// The program of three dumps, loaded into these tables and run to its trap: the bytes of the machine that it leaves.
fn run_to_the_trap(image: &[u8], insts: &mut [u8], labels: &mut [u8], machine: &mut [u8], dumps: &mut [u8]) -> Vec<u8> {
    insts.fill(0xEE);
    labels.fill(0xEE);
    let machine: &mut [u8; MACHINE_SIZE] = machine.try_into().expect("a machine's length");
    let (program, mut machine) = Program::load(image, insts, labels, machine).expect("it loads");
    assert_eq!(program.count(), 8);
    assert!(program.insts()[8 * 32..].iter().chain(&program.labels()[2 * 32..]).all(|&byte| byte == 0xEE));
    let ran = machine.run(&program, 100, dumps);
    assert_eq!((ran.ending, ran.steps), (Ending::Trap(Trap::StackUnderflow), 7));
    assert_eq!(ran.dumped, [int(5); 3]);
    machine.as_bytes().to_vec()
}

#[test]
fn any_address_and_odd_lengths() {
    let bytes = three_dumps();
    let (mut insts, mut labels, mut machine, mut dumps) = (vec![0; INSTS_SIZE], vec![0; LABELS_SIZE], machine_bytes(), [0; 24]);
    let want = run_to_the_trap(&bytes, &mut insts, &mut labels, &mut machine, &mut dumps);
    let mut ends = placed(bytes.len(), 0xEE, |image| {
        image.copy_from_slice(&bytes);
        run_to_the_trap(image, &mut insts, &mut labels, &mut machine, &mut dumps)
    });
    ends.extend(placed(INSTS_SIZE + 31, 0xEE, |insts| run_to_the_trap(&bytes, insts, &mut labels, &mut machine, &mut dumps)));
    ends.extend(placed(LABELS_SIZE + 7, 0xEE, |labels| run_to_the_trap(&bytes, &mut insts, labels, &mut machine, &mut dumps)));
    ends.extend(placed(MACHINE_SIZE, 0xEE, |machine| run_to_the_trap(&bytes, &mut insts, &mut labels, machine, &mut dumps)));
    ends.extend(placed(3 * 8 + 5, 0xEE, |dumps| {
        let end = run_to_the_trap(&bytes, &mut insts, &mut labels, &mut machine, dumps);
        assert!(dumps[24..].iter().all(|&byte| byte == 0xEE), "a byte that belongs to no cell was written");
        end
    }));
    assert!(ends.len() == 5 * 16 && ends.iter().all(|end| *end == want));
}

#[test]
fn a_refused_load_writes_nothing() {
    let refused = [
        (vec![0x45], INSTS_SIZE, LABELS_SIZE, Refusal::NoStart),
        (image(&[vec![47]]), INSTS_SIZE, LABELS_SIZE, Refusal::UndefinedByte),
        (image(&[]), INSTS_SIZE - 1, LABELS_SIZE, Refusal::NoRoom),
        (image(&[]), INSTS_SIZE, LABELS_SIZE - 1, Refusal::NoRoom),
        (vec![47; 20_000], 0, 0, Refusal::NoRoom),
    ];
    for (image, insts, labels, refusal) in refused {
        let (mut insts, mut labels, mut machine) = (vec![7; insts], vec![9; labels], machine_bytes());
        assert_eq!(Program::load(&image, &mut insts, &mut labels, &mut machine).err(), Some(refusal));
        assert!(insts.iter().all(|&byte| byte == 7) && labels.iter().all(|&byte| byte == 9) && machine == machine_bytes());
    }
}

#[test]
fn records_lie_as_the_page_says() {
    let (mut insts, mut labels, mut machine) = (vec![0; INSTS_SIZE], vec![0; LABELS_SIZE], machine_bytes());
    let image = image(&[push(int(5))]);
    let (program, machine) = Program::load(&image, &mut insts, &mut labels, &mut machine).expect("it loads");
    let numbers =
        |bytes: &[u8]| -> Vec<u64> { bytes.chunks(8).map(|number| u64::from_le_bytes(number.try_into().expect("eight"))).collect() };
    assert_eq!(program.count(), 3);
    assert_eq!(numbers(&program.insts()[..96]), [21, 0, 9, 6, 1, int(5), 0, 0, 69, 0, 0, 0]);
    assert_eq!(numbers(&program.labels()[..64]), [0, 0, 0, 1, 9, 6, 0, 0]);
    assert!(machine.as_bytes().iter().all(|&byte| byte == 0), "the fresh machine of a _start at 0 is zero throughout");
}

#[test]
fn a_full_buffer_and_the_room_behind_it() {
    let (mut insts, mut labels, mut machine) = (vec![0; INSTS_SIZE], vec![0; LABELS_SIZE], machine_bytes());
    let image = three_dumps();
    let (program, mut machine) = Program::load(&image, &mut insts, &mut labels, &mut machine).expect("it loads");
    let mut dumps = [3; 15];
    let ran = machine.run(&program, 100, &mut dumps);
    assert_eq!((ran.ending, ran.steps), (Ending::BufferFull, 3));
    assert_eq!(ran.dumped, [int(5)]);
    assert_eq!((ran.dumped.len(), ran.dumped.iter().next_back()), (1, Some(int(5))));
    assert_eq!(dumps[8..], [3; 7]);
    let ran = machine.run(&program, 100, &mut dumps[..7]);
    assert_eq!((ran.ending, ran.steps, ran.dumped.is_empty()), (Ending::BufferFull, 0, true));
}

#[test]
fn a_machine_is_taken_up_where_it_lies() {
    let (mut insts, mut labels, mut bytes) = (vec![0; INSTS_SIZE], vec![0; LABELS_SIZE], machine_bytes());
    let image = three_dumps();
    let (program, _) = Program::load(&image, &mut insts, &mut labels, &mut bytes).expect("it loads");
    let mut machine = Machine::from_bytes(&mut bytes).expect("a load left it");
    let ran = machine.run(&program, 2, &mut []);
    assert_eq!((ran.ending, machine.pointer()), (Ending::Limit, 2));
    assert_eq!(machine.cells(), [int(5)]);
    // it was run in these bytes
    assert_eq!(bytes[..8], int(5).to_le_bytes());
}

#[test]
fn bytes_that_are_no_machine() {
    assert_eq!(Machine::from_bytes(&mut machine_bytes()), Err(NotAMachine::Halted(0xAA)));
    assert_eq!(Machine::from_bytes(&mut [0; MACHINE_SIZE - 1]), Err(NotAMachine::Length(MACHINE_SIZE - 1)));
    assert_eq!(Machine::from_bytes(&mut [0; MACHINE_SIZE + 1]), Err(NotAMachine::Length(MACHINE_SIZE + 1)));
    let mut halted = [0; MACHINE_SIZE];
    halted[HALTED_AT] = 1;
    assert_eq!(Machine::from_bytes(&mut halted).map(|machine| machine.halted()), Ok(true));
}

// Image and instruction table at every address; the table is all that the call is lent beside the image.
#[test]
fn the_size_of_an_encoding_at_any_address() {
    let (mut insts, mut labels, mut machine) = (vec![0; INSTS_SIZE], vec![0; LABELS_SIZE], machine_bytes());
    let bytes = three_dumps();
    let mut sizes = placed(bytes.len(), 0xEE, |image| {
        image.copy_from_slice(&bytes);
        let (program, _) = Program::load(image, &mut insts, &mut labels, &mut machine).expect("it loads");
        program.encoded_size()
    });
    sizes.extend(placed(INSTS_SIZE + 31, 0xEE, |insts| {
        let (program, _) = Program::load(&bytes, insts, &mut labels, &mut machine).expect("it loads");
        program.encoded_size()
    }));
    assert_eq!(sizes, vec![Ok(bytes.len() + 1); 2 * 16]);
}

#[test]
fn an_encoding_fills_the_front() {
    let (mut insts, mut labels, mut machine) = (vec![0; INSTS_SIZE], vec![0; LABELS_SIZE], machine_bytes());
    let image = image(&[vec![27, 1]]);
    let (program, _) = Program::load(&image, &mut insts, &mut labels, &mut machine).expect("it loads");
    let want = [&image[..15], &[46, 1, 69]].concat();
    assert_eq!(program.encoded_size(), Ok(want.len()));
    placed(want.len() + 3, 0xEE, |out| {
        assert_eq!(program.encode(out), Ok(want.clone().as_mut_slice()));
        assert_eq!(out[want.len()..], [0xEE; 3]);
    });
    placed(want.len(), 0xEE, |out| assert_eq!(program.encode(out), Ok(want.clone().as_mut_slice())));
    placed(want.len() - 1, 0xEE, |out| {
        assert_eq!(program.encode(out), Err(Refusal::NoRoom));
        assert!(out.iter().all(|&byte| byte == 0xEE));
    });
}
