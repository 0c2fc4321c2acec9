// The calls over label records and a machine in place beside those over byte slices, which mm/main.rs holds to the Rust: the same
// images are loaded by both and run in the same pieces, many of one step; after each call all that was lent and answered is compared.
// Usage: oracle-labels [SEED] [IMAGES]
// the comparison with the Rust has more of it
#[allow(dead_code)]
#[path = "mm/images.rs"]
mod images;
mod lent;
mod records;

use images::Random;
use lent::layout::*;
use lent::{put_number, sys, Program};
use records::Label;

#[derive(Default)]
struct Report {
    images: u64,
    refused: u64,
    calls: u64,
    steps: u64,
    ill: u64,
}

// The steps that an image is followed for, and the fewest in all.
const STEPS: u64 = 400;
const WANTED: u64 = 1_000_000;

// The tables of the calls over label records.
#[derive(Clone, PartialEq)]
struct Tables {
    insts: Vec<u8>,
    labels: Vec<Label>,
}

// Every byte of the tables, and whatever the lengths leave over.
fn same_tables(core: &Program, records: &Tables) -> bool {
    let bytes = records.labels.iter().flat_map(Label::bytes);
    core.insts == records.insts && bytes.eq(core.labels[..RECORD_SIZE * records.labels.len()].iter().copied())
}

// Both forms of what is lent, with the same bytes in it before the load.
struct Both<'a> {
    core: Program<'a>,
    records: Tables,
}

// The machine in both forms.
struct Machines {
    core: lent::Machine,
    in_place: Box<records::Machine>,
}

impl Machines {
    fn are_alike(&self) -> bool {
        self.core.0 == self.in_place.bytes()
    }

    // The number of that place in both.
    fn set(&mut self, at: usize, number: u64) {
        put_number(&mut self.core.0, at, number);
        let m = &mut self.in_place;
        *match at {
            HEIGHT_AT => &mut m.height,
            CALL_HEIGHT_AT => &mut m.call_height,
            _ => &mut m.ip,
        } = number;
    }
}

// A machine with something in each number: the load over byte slices has to replace it.
fn used() -> lent::Machine {
    lent::Machine(records::Machine { height: 3, flags: 5, halted: true, ..records::Machine::fresh(11) }.bytes())
}

impl<'a> Both<'a> {
    // Both loads: None where they refuse, or both and the fresh machine, which over records is the one of the pointer that is answered.
    fn load(image: &'a [u8], random: &mut Random) -> Result<Option<(Both<'a>, Machines)>, String> {
        let insts = INSTS_SIZE - usize::from(random.one_in(16)) + random.below(40) as usize;
        let many = 513 - usize::from(random.one_in(16));
        let mut core = Program { image, insts: vec![7; insts], labels: vec![9; RECORD_SIZE * many], count: 0 };
        let nine = 0x0909_0909_0909_0909;
        let mut records = Tables { insts: vec![7; insts], labels: vec![Label { start: nine, len: nine, target: nine, next: nine }; many] };
        let mut machine = used();
        let loaded = sys::load(image, &mut core.insts, &mut core.labels, &mut machine.0);
        let answer = records::load(image, &mut records.insts, &mut records.labels);
        if (answer.number, answer.count) != (loaded.number, loaded.count) || !same_tables(&core, &records) {
            return Err(format!("the load: {loaded:?}, by records {answer:?}"));
        }
        if loaded.number != 0 {
            let nothing = machine == used() && answer.ip == 0;
            return if nothing { Ok(None) } else { Err(format!("a refused load wrote to the machine, or {answer:?} has a pointer")) };
        }
        core.count = loaded.count;
        let machines = Machines { core: machine, in_place: Box::new(records::Machine::fresh(answer.ip)) };
        if !machines.are_alike() {
            return Err(format!("the load: {answer:?}, and its fresh machine is another"));
        }
        Ok(Some((Both { core, records }, machines)))
    }

    // A number that no load leaves there, in the label table of both or in the machine.
    fn damage(&mut self, machines: &mut Machines, random: &mut Random) {
        let number = if random.one_in(2) { random.below(1_030) } else { random.next() };
        match random.below(8) {
            0 => machines.set(HEIGHT_AT, number),
            1 => machines.set(CALL_HEIGHT_AT, number),
            2 => machines.set(POINTER_AT, number),
            3 => self.core.count = number,
            _ => {
                let last = self.core.labels.len() / NUMBER_SIZE - 1;
                let at = (random.below(4 * (self.core.count + 1)) as usize).min(last);
                put_number(&mut self.core.labels, NUMBER_SIZE * at, number);
                let l = &mut self.records.labels[at / 4];
                *[&mut l.start, &mut l.len, &mut l.target, &mut l.next][at % 4] = number;
            }
        }
    }

    // Both in the same pieces; a trap is tried twice.
    fn runs(&self, machines: &mut Machines, random: &mut Random, report: &mut Report) -> Result<(), String> {
        let (mut steps, mut tries) = (0, 0);
        for _ in 0..STEPS {
            let limit = if random.one_in(4) { random.below(40) } else { 1 };
            let mut dumps = vec![17; random.below(32) as usize];
            let mut filled = dumps.clone();
            let ran = self.core.run(&mut machines.core, limit, &mut dumps);
            let Tables { insts, labels } = &self.records;
            let answer = records::run(self.core.image, insts, labels, self.core.count, &mut machines.in_place, limit, &mut filled);
            report.calls += 1;
            steps += ran.steps;
            let alike = machines.are_alike();
            if (answer.0, answer.1, answer.2) != (ran.ending, ran.steps, ran.dumped) || !alike || filled != dumps {
                let in_place = [answer.0, answer.1, answer.2];
                return Err(format!("after {steps} steps, limit {limit}: {ran:?}, in place {in_place:?}, machines alike: {alike}"));
            }
            tries += u64::from(ran.ending > 1 && ran.ending != 33);
            if machines.core.is_halted() || tries == 2 || steps >= STEPS {
                break;
            }
        }
        report.steps += steps;
        Ok(())
    }
}

fn compare(image: &[u8], random: &mut Random, report: &mut Report) -> Result<(), String> {
    report.images += 1;
    let Some((mut both, mut machines)) = Both::load(image, random)? else {
        report.refused += 1;
        return Ok(());
    };
    if random.one_in(8) {
        report.ill += 1;
        both.damage(&mut machines, random);
    }
    let before = (both.core.insts.clone(), both.core.labels.clone(), both.records.clone());
    both.runs(&mut machines, random, report)?;
    let core_kept = (&both.core.insts, &both.core.labels) == (&before.0, &before.1);
    if !core_kept || both.records != before.2 {
        return Err(format!("a run {} wrote to a table", if core_kept { "over records" } else { "over byte slices" }));
    }
    Ok(())
}

fn main() {
    let number = |i: usize, default: u64| std::env::args().nth(i).map_or(default, |a| a.parse().expect("a number"));
    let (seed, wanted) = (number(1, 1), number(2, 25_000));
    let mut random = Random(seed);
    let mut report = Report::default();
    let mut boundary = images::boundary().into_iter();
    while report.images < wanted || report.steps < WANTED {
        let image = boundary.next().unwrap_or_else(|| match random.below(8) {
            0 => images::short(random.below(images::SHORT)),
            1 => images::damaged(&mut random),
            _ => images::lively(&mut random),
        });
        if let Err(what) = compare(&image, &mut random, &mut report) {
            println!("labels: image {} of seed {seed} differs: {what}\n{image:02X?}", report.images);
            std::process::exit(1);
        }
    }
    let Report { images, refused, calls, steps, ill } = report;
    println!("label records: {images} images, {refused} of them refused, {ill} with damage; {calls} runs, {steps} steps, all alike");
}
