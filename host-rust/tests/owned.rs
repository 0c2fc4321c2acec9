// The owning layer: programs and machines in memory of their own.
mod images;

use images::{image, int, named, push, three_dumps};
use mm_host::layout::{CALL_HEIGHT_AT, HALTED_AT, HEIGHT_AT, MACHINE_SIZE, POINTER_AT};
use mm_host::{Ending, Machine, NotAMachine, Program, Refusal, Trap};

fn load(image: Vec<u8>) -> Program {
    Program::load(image).expect("it loads")
}

#[test]
fn each_refusal_of_a_load() {
    let refused = [
        (image(&[vec![0; 16_370]]), Refusal::ImageTooLong),
        (image(&[vec![47]]), Refusal::UndefinedByte),
        (image(&[vec![1, 0, 0]]), Refusal::PastEnd),
        (image(&[named(21, "\u{e9}")]), Refusal::NameByte),
        (image(&[vec![0; 4_095]]), Refusal::TooManyInstructions),
        (image(&[named(21, "").repeat(512)]), Refusal::TooManyLabels),
        (named(21, "start"), Refusal::NoStart),
        (image(&[named(37, "x")]), Refusal::Native),
    ];
    for (image, refusal) in refused {
        assert_eq!(Program::load(image), Err(refusal));
    }
    assert_eq!(load(image(&[vec![0; 4_094]])).count(), 4_096);
}

#[test]
fn each_trap_of_a_run() {
    let trapped = [
        (vec![vec![2]], Trap::StackUnderflow, 1),
        (vec![push(int(1)).repeat(1_025)], Trap::StackOverflow, 1_025),
        (vec![vec![29]], Trap::NoOpenCall, 1),
        (vec![named(28, "_start")], Trap::CallStackFull, 1),
        (vec![push(int(1)), push(int(0)), vec![8]], Trap::DivisionByZero, 3),
        (vec![push(int(1_024)), push(int(1)), vec![39]], Trap::AddressPastMemory, 3),
        (vec![named(20, "gone")], Trap::NoSuchLabel, 1),
        (vec![named(28, "gone")], Trap::NoSuchFunction, 1),
        (vec![push(int(1)), vec![31]], Trap::WrongType, 2),
        (vec![push(int(1) | 1 << 63), vec![34]], Trap::NegativeConversion, 2),
        (vec![push(int(1)), push(1.0f64.to_bits()), vec![5]], Trap::NotBothI64, 3),
        (vec![push(0x7FF5_0000_0000_0000), vec![31]], Trap::UnknownType, 2),
        (vec![push(int(1)), vec![46, 3]], Trap::NoSuchStream, 2),
    ];
    assert_eq!(trapped.len(), Trap::ALL.len());
    for (rest, trap, at) in trapped {
        let program = load(image(&rest));
        let mut machine = program.machine();
        let ending = machine.run(&program, 10_000, &mut [0; 4]).ending;
        assert_eq!((ending, machine.pointer(), machine.halted()), (Ending::Trap(trap), at, false));
    }
}

#[test]
fn zero_by_zero_converts_to_zero() {
    let zero = push(0f64.to_bits());
    for (conversion, cell) in [(31, int(0)), (32, 0x7FF3_0000_0000_0000)] {
        let program = load(image(&[zero.clone(), zero.clone(), vec![26, conversion, 46, 1]]));
        let mut dumps = [1, 2];
        let ran = program.machine().run(&program, 100, &mut dumps);
        assert_eq!((ran.ending, ran.steps, ran.dumped), (Ending::Halted, 7, [cell].as_slice()));
    }
}

#[test]
fn a_run_goes_on_after_limit_full_buffer_and_trap() {
    let program = load(three_dumps());
    let mut machine = program.machine();
    let mut dumps = [1, 2];
    let ran = machine.run(&program, 3, &mut dumps);
    assert_eq!((ran.ending, ran.steps, ran.dumped), (Ending::Limit, 3, [int(5)].as_slice()));
    assert_eq!(dumps, [int(5), 2]);
    let ran = machine.run(&program, 100, &mut dumps[1..]);
    assert_eq!((ran.ending, ran.steps, ran.dumped), (Ending::BufferFull, 1, [int(5)].as_slice()));
    for _ in 0..2 {
        let ran = machine.run(&program, 100, &mut []);
        assert_eq!((ran.ending, ran.steps, ran.dumped), (Ending::BufferFull, 0, [].as_slice()));
    }
    let ran = machine.run(&program, 100, &mut dumps);
    assert_eq!((ran.ending, ran.steps, ran.dumped.len()), (Ending::Trap(Trap::StackUnderflow), 3, 1));
    let ran = machine.run(&program, 100, &mut []);
    assert_eq!((ran.ending, ran.steps, machine.pointer()), (Ending::Trap(Trap::StackUnderflow), 1, 6));
}

#[test]
fn pieces_are_one_run() {
    let program = load(image(&[push(int(0)), named(21, "l"), vec![3, 46, 2], push(int(99)), vec![9], named(17, "l")]));
    let (mut whole, mut all) = (program.machine(), [0; 100]);
    let one = whole.run(&program, 10_000, &mut all);
    assert_eq!((one.ending, one.dumped.len()), (Ending::Halted, 99));
    for limit in 1..20 {
        let (mut machine, mut steps, mut cells) = (program.machine(), 0, Vec::new());
        let mut dumps = [0; 3];
        while !machine.halted() {
            let ran = machine.run(&program, limit, &mut dumps);
            steps += ran.steps;
            cells.extend_from_slice(ran.dumped);
        }
        assert_eq!((steps, cells.as_slice()), (one.steps, one.dumped));
        assert_eq!(machine, whole);
    }
}

#[test]
fn what_a_machine_holds() {
    let write = [push(int(3)), push(int(300)), vec![39]];
    let rest = [write.concat(), push(int(6)), push(int(7)), push(int(8)), vec![9], named(28, "f"), vec![69], named(21, "f")];
    let program = load(image(&rest));
    let mut machine = program.machine();
    let ran = machine.run(&program, 9, &mut []);
    assert_eq!(ran.ending, Ending::Limit);
    assert_eq!(machine.cells(), [int(6), int(7)]);
    assert_eq!((machine.cells().last(), machine.cells().get(0), machine.cells().get(2)), (Some(int(7)), Some(int(6)), None));
    assert_eq!(machine.addresses(), [9]);
    assert_eq!((machine.memory()[3], machine.memory().len()), (44, 1_024));
    // 7 is below 8: L, LE, NE and NZ
    assert_eq!((machine.flags(), machine.pointer(), machine.halted()), (0b1010_0110, 10, false));
    assert_eq!(format!("{machine:?}"), "Machine { pointer: 10, height: 2, calls: 1, halted: false, .. }");
    assert_eq!(format!("{program:?}"), format!("Program {{ image_len: {}, count: 12, .. }}", program.image().len()));
}

#[test]
fn a_program_gives_the_same_fresh_machine_again() {
    let program = load(three_dumps());
    let mut machine = program.machine();
    let fresh = machine.clone();
    let _ = machine.run(&program, 2, &mut []);
    assert_ne!(machine, fresh);
    assert_eq!(program.machine(), fresh);
    assert!(fresh.as_bytes().iter().all(|&byte| byte == 0));
    let twice_started = load(image(&[vec![0], named(21, "_start")]));
    assert_eq!(twice_started.machine().pointer(), 2);
}

#[test]
fn what_is_written_out_loads_again() {
    let image = image(&[push(int(5)), vec![27, 1]]);
    let program = load(image.clone());
    let out = program.encode();
    // HALT was appended, and 27 was read as 46
    assert_eq!((&out[..24], &out[24..]), (&image[..24], [46, 1, 69].as_slice()));
    let again = load(out.clone());
    assert_eq!((again.count(), again.encode(), again.machine()), (program.count(), out.clone(), program.machine()));
    let (tables, before) = (again.as_lent(), program.as_lent());
    assert!(tables.insts() == before.insts() && tables.labels() == before.labels());
    let mut room = vec![9; out.len() + 2];
    assert_eq!(program.encode_into(&mut room[..out.len() - 1]), Err(Refusal::NoRoom));
    assert!(room.iter().all(|&byte| byte == 9));
    assert_eq!(program.encode_into(&mut room).map(|written| &*written), Ok(out.as_slice()));
    assert_eq!(room[out.len()..], [9, 9]);
}

// 1 byte; 9 with a cell or a number; 2 with a stream; 9 and the name with a name, also one of no byte.
#[test]
fn each_instruction_begins_where_the_lengths_before_it_end() {
    let number = [&[10], 3u64.to_le_bytes().as_slice()].concat();
    let insts = [
        (15, named(21, "_start")),
        (9, named(21, "")),
        (9, push(int(5))),
        (9, number),
        (2, vec![46, 1]),
        (10, named(20, "x")),
        (1, vec![5]),
        (1, vec![69]),
    ];
    let out = load(insts.clone().map(|(_, inst)| inst).concat()).encode();
    let mut at = 0;
    for (length, inst) in insts {
        assert_eq!(out[at..at + length], inst);
        at += length;
    }
    assert_eq!(at, out.len());
}

// The size of the program, which is what an encoding needs: as much is enough, and with a byte less nothing is written.
fn size_needed(image: &[u8]) -> usize {
    let program = load(image.to_vec());
    let (size, out) = (program.encoded_size(), program.encode());
    assert_eq!(out.len(), size);
    let mut room = vec![9; size];
    assert_eq!(program.encode_into(&mut room[..size - 1]), Err(Refusal::NoRoom));
    assert_eq!(room, vec![9; size]);
    assert_eq!(program.encode_into(&mut room).map(|written| &*written), Ok(out.as_slice()));
    size
}

#[test]
fn the_size_is_the_images_and_a_byte_for_the_appended_halt() {
    for ends_with_halt in [vec![vec![69]], vec![vec![0, 69, 69]], vec![push(int(5)), vec![27, 1, 69]]] {
        let image = image(&ends_with_halt);
        assert_eq!(size_needed(&image), image.len());
    }
    for ends_otherwise in [vec![], vec![vec![0]], vec![vec![69, 0]], vec![push(int(5)), vec![27, 1]]] {
        let image = image(&ends_otherwise);
        assert_eq!(size_needed(&image), image.len() + 1);
    }
    assert_eq!(size_needed(&three_dumps()), three_dumps().len() + 1);
}

// A last byte of 69 is no HALT where it belongs to an operand: a name, a cell, a number, a stream.
#[test]
fn halt_is_appended_behind_an_operand_that_ends_with_69() {
    let number = [&[10], (69u64 << 56).to_le_bytes().as_slice()].concat();
    for last in [named(21, "E"), named(20, "_starE"), push(69 << 56), number, vec![27, 69], vec![46, 69]] {
        let image = image(&[last]);
        let program = load(image.clone());
        assert_eq!((image.last(), program.count()), (Some(&69), 3));
        assert_eq!(size_needed(&image), image.len() + 1);
        assert_eq!(program.encode().last(), Some(&69));
        // with the HALT written it stays as it is
        assert_eq!(size_needed(&program.encode()), image.len() + 1);
    }
}

// Bits 48 to 62 of a name's length are ignored, and bit 63 of a length 0: they are written as 0, in as many bytes.
#[test]
fn ignored_bits_of_a_length_are_written_as_zero() {
    let plain = image(&[named(21, ""), vec![69]]);
    let mut odd = plain.clone();
    odd[7..9].copy_from_slice(&[0xFF, 0x7F]);
    odd[15 + 7..15 + 9].copy_from_slice(&[0xFF, 0xFF]);
    assert_eq!(size_needed(&odd), plain.len());
    assert_eq!(load(odd).encode(), plain);
}

// An image as long as a load takes, with no HALT at its end: the appended one makes it too long to be loaded again.
#[test]
fn the_longest_image_written_out_is_too_long() {
    let longest = image(&[push(int(5)).repeat(1_818), vec![0; 7]]);
    let program = load(longest.clone());
    assert_eq!((longest.len(), program.count()), (16_384, 1 + 1_818 + 7 + 1));
    assert_eq!(size_needed(&longest), 16_385);
    let out = program.encode();
    assert_eq!((out.len(), &out[..16_384], out[16_384]), (16_385, longest.as_slice(), 69));
    assert_eq!(Program::load(out), Err(Refusal::ImageTooLong));
    // with a HALT of its own it is written out as it was
    let halted = [&longest[..16_383], &[69]].concat();
    assert_eq!((size_needed(&halted), load(halted.clone()).encode()), (16_384, halted.clone()));
    assert_eq!(load(load(halted.clone()).encode()), load(halted));
}

#[test]
fn a_stored_machine_runs_on() {
    let program = load(three_dumps());
    let mut machine = program.machine();
    let _ = machine.run(&program, 3, &mut [0; 1]);
    let mut again = Machine::from_bytes(machine.as_bytes()).expect("it was a machine");
    assert_eq!(again, machine);
    let (mut a, mut b) = ([0; 4], [0; 4]);
    assert_eq!(again.run(&program, 100, &mut a), machine.run(&program, 100, &mut b));
    assert_eq!(again, machine);
}

#[test]
fn bytes_that_are_no_machine() {
    let bytes = [0; MACHINE_SIZE + 1];
    assert_eq!(Machine::from_bytes(&bytes), Err(NotAMachine::Length(17_435)));
    assert_eq!(Machine::from_bytes(&bytes[2..]), Err(NotAMachine::Length(17_433)));
    assert_eq!(Machine::from_bytes(&[]), Err(NotAMachine::Length(0)));
    let mut bytes = [0; MACHINE_SIZE];
    for halted in [2, 255] {
        bytes[HALTED_AT] = halted;
        assert_eq!(Machine::from_bytes(&bytes), Err(NotAMachine::Halted(halted)));
    }
}

#[test]
fn a_state_that_no_run_leaves_is_34() {
    let program = load(image(&[]));
    for (at, number) in [(HEIGHT_AT, 1_025), (CALL_HEIGHT_AT, u64::MAX), (POINTER_AT, 2)] {
        let mut bytes = *program.machine().as_bytes();
        bytes[at..at + 8].copy_from_slice(&u64::to_le_bytes(number));
        let mut machine = Machine::from_bytes(&bytes).expect("length and halted are a machine's");
        let ran = machine.run(&program, 5, &mut []);
        assert_eq!((ran.ending, ran.steps), (Ending::IllState, 0));
        assert_eq!(machine.as_bytes(), &bytes);
        // the views stay within the machine
        assert!(machine.cells().len() <= 1_024 && machine.addresses().len() <= 1_024);
    }
}

#[test]
fn another_programs_machine_is_answered() {
    let (long, short) = (load(image(&[vec![0; 50]])), load(image(&[])));
    let mut machine = long.machine();
    let _ = machine.run(&long, 20, &mut []);
    assert_eq!(machine.run(&short, 5, &mut []).ending, Ending::IllState);
}

#[test]
fn threads_share_a_program() {
    let program = load(three_dumps());
    let ends: Vec<Machine> = std::thread::scope(|scope| {
        let one = || {
            let mut machine = program.machine();
            let _ = machine.run(&program, 100, &mut [0; 8]);
            machine
        };
        let started: Vec<_> = (0..4).map(|_| scope.spawn(one)).collect();
        started.into_iter().map(|thread| thread.join().expect("it ends")).collect()
    });
    assert!(ends.iter().all(|machine| machine.pointer() == 6 && machine == &ends[0]));
}
