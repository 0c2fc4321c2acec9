// Images loaded, written out, loaded again and written out again (request b of document 02): every answer and every byte left is held to
// what a walk over the image by document 01 gives (walk.rs). Each slice stands before a page that may not be touched.
// Usage: oracle-rewritten [SEED] [IMAGES]

// odd.rs and random.rs use more of both
#[allow(dead_code)]
mod blocks;
#[allow(dead_code)]
mod stand;
// the comparison with the Rust has more of it
#[allow(dead_code)]
#[path = "mm/images.rs"]
mod images;
mod lent;
mod rewritten_cases;
mod rewritten_images;
mod walk;

use blocks::Place;
use images::Random;
use lent::layout::*;
use lent::{put_number, table};
use rewritten_cases::Met;
use stand::{Call, Lent, Stand, INSTS, LABELS, MACHINE, OUT, SLICES};
use walk::Walk;

type Held = Result<(), String>;

// What tables and machine hold before the first load, and before the second; no record of such bytes is well formed. And what an output
// holds before an encoding.
const FILLS: [u8; 2] = [0xA7, 0x5C];
const OUTPUT: u8 = 0x3B;

// Fewer instructions than so many are written in any order.
const PICKED: u64 = 16;

// How far both programs are run, and the bytes of the buffer.
const STEPS: u64 = 64;
const DUMPS: usize = 16 * NUMBER_SIZE;

struct Trial {
    stand: Stand,
    // what is lent to each of the two loads, but for the image
    blanks: [Lent; 2],
    random: Random,
    met: Met,
    appended: u64,
    too_long: u64,
    picked: u64,
}

const NAMES: [&str; SLICES] = ["image", "instruction table", "label table", "machine", "output"];

// The call answers this, and leaves this in the slices.
fn expect(stand: &mut Stand, call: Call, lent: &Lent, answer: [u64; 3], left: [&[u8]; SLICES]) -> Held {
    let got = stand.call(call, lent, [Place::Back(0); SLICES])?;
    let other = (0..SLICES).find(|i| stand.left(*i) != left[*i]);
    let what = match other {
        _ if got != answer => format!("{got:?} for {answer:?}"),
        Some(i) => {
            let same = stand.left(i).iter().zip(left[i]).take_while(|(got, byte)| got == byte).count();
            format!("the {} holds something else from byte {same} on", NAMES[i])
        }
        None => return Ok(()),
    };
    Err(format!("{call:?} on {:?} bytes: {what}", lent.each_ref().map(Vec::len)))
}

// The call answers this, and writes nothing.
fn expect_kept(stand: &mut Stand, call: Call, lent: &Lent, answer: [u64; 3]) -> Held {
    expect(stand, call, lent, answer, lent.each_ref().map(Vec::as_slice))
}

// The encoding into an output of that length: these bytes and the rest unchanged, or 10.
fn expect_encoded(stand: &mut Stand, lent: &mut Lent, count: usize, room: usize, written: &[u8]) -> Held {
    let call = Call::Encode { count: count as u64 };
    lent[OUT] = vec![OUTPUT; room];
    if room < written.len() {
        return expect_kept(stand, call, lent, [10, 0, 0]);
    }
    let out = [written, &vec![OUTPUT; room - written.len()]].concat();
    expect(stand, call, lent, [0, written.len() as u64, 0], [&lent[0], &lent[INSTS], &[], &[], &out])
}

impl Trial {
    fn new(seed: u64) -> Trial {
        let sizes = [0, INSTS_SIZE, LABELS_SIZE, MACHINE_SIZE, 0];
        let blanks = FILLS.map(|fill| sizes.map(|size| vec![fill; size]));
        Trial { stand: Stand::guarded(), blanks, random: Random(seed), met: Met::new(), appended: 0, too_long: 0, picked: 0 }
    }

    // The image is accepted with what the walk has; what is lent from then on. One time in sixteen that is the whole tables, else they are
    // cut to what is filled and a record.
    fn loaded(&mut self, image: &[u8], walk: &Walk, which: usize) -> Result<Lent, String> {
        let (records, labels, fill) = (walk.records(), walk.labels(), FILLS[which]);
        let mut machine = vec![0; MACHINE_SIZE];
        put_number(&mut machine, POINTER_AT, walk.pointer());
        let tables = (table(&records, INSTS_SIZE, fill), table(&labels, LABELS_SIZE, fill));
        let mut left = [image.to_vec(), tables.0, tables.1, machine, Vec::new()];
        self.blanks[which][0] = image.to_vec();
        let answer = [0, walk.count() as u64, 0];
        expect(&mut self.stand, Call::Load, &self.blanks[which], answer, left.each_ref().map(Vec::as_slice))?;
        if !self.random.one_in(16) {
            left[INSTS].truncate((records.len() + 1) * RECORD_SIZE);
            left[LABELS].truncate((labels.len() + 1) * RECORD_SIZE);
        }
        Ok(left)
    }

    // The size and the encodings: of the program, of so many of its instructions, and with a count that is too high.
    fn written_out(&mut self, loaded: &Lent, walk: &Walk, written: &[u8]) -> Held {
        let (count, size, stand) = (walk.count(), written.len(), &mut self.stand);
        let mut lent = [loaded[0].clone(), loaded[INSTS].clone(), Vec::new(), Vec::new(), Vec::new()];
        let fewer = self.random.below(count as u64) as usize;
        let start = walk.start(fewer);
        for (count, answer) in [(count, [0, size as u64, 0]), (fewer, [0, start as u64, 0]), (count + 1, [9, 0, 0])] {
            expect_kept(stand, Call::Size { count: count as u64 }, &lent, answer)?;
        }
        for room in [size, size - 1, size + 1, self.random.below(size as u64) as usize] {
            expect_encoded(stand, &mut lent, count, room, written)?;
        }
        expect_encoded(stand, &mut lent, fewer, size, &written[..start])?;
        expect_kept(stand, Call::Encode { count: count as u64 + 1 }, &lent, [9, 0, 0])
    }

    // A table that no load filled: the program's instructions in any order, some more than once. Each one's bytes begin where the lengths
    // before it end, and the size of the first k is where the next one begins.
    fn in_any_order(&mut self, loaded: &Lent, walk: &Walk, written: &[u8]) -> Held {
        let (mut picked, mut room) = (Vec::new(), IMAGE_MAX);
        for _ in 0..self.random.below(PICKED) {
            let i = self.random.below(walk.count() as u64) as usize;
            let Some(left) = room.checked_sub(walk.end(i) - walk.start(i)) else { break };
            picked.push(i);
            room = left;
        }
        let records: Vec<u8> = picked.iter().flat_map(|i| &loaded[INSTS][i * RECORD_SIZE..][..RECORD_SIZE]).copied().collect();
        let mut lent = [loaded[0].clone(), records, Vec::new(), Vec::new(), Vec::new()];
        let mut out = Vec::new();
        for (k, i) in picked.iter().enumerate() {
            expect_kept(&mut self.stand, Call::Size { count: k as u64 }, &lent, [0, out.len() as u64, 0])?;
            out.extend_from_slice(&written[walk.start(*i)..walk.end(*i)]);
        }
        self.picked += picked.len() as u64;
        expect_encoded(&mut self.stand, &mut lent, picked.len(), out.len() + 1, &out)
    }

    // Answer, machine and cells of a run.
    fn ran(&mut self, loaded: &Lent, walk: &Walk) -> Result<([u64; 3], [Vec<u8>; 2]), String> {
        let mut lent = loaded.clone();
        lent[OUT] = vec![OUTPUT; DUMPS];
        let call = Call::Run { count: walk.count() as u64, limit: STEPS };
        let answer = self.stand.call(call, &lent, [Place::Back(0); SLICES])?;
        Ok((answer, [MACHINE, OUT].map(|i| self.stand.left(i).to_vec())))
    }

    fn image(&mut self, image: &[u8]) -> Held {
        let walk = Walk::of(image);
        let written = walk.written();
        self.met.image(&walk);
        self.appended += u64::from(walk.is_open());
        let first = self.loaded(image, &walk, 0)?;
        self.written_out(&first, &walk, &written)?;
        self.in_any_order(&first, &walk, &written)?;
        if written.len() > IMAGE_MAX {
            self.too_long += 1;
            self.blanks[1][0] = written;
            return expect_kept(&mut self.stand, Call::Load, &self.blanks[1], [1, 0, 0]);
        }
        let second = self.loaded(&written, &walk, 1)?;
        self.written_out(&second, &walk, &written)?;
        if self.ran(&first, &walk)? != self.ran(&second, &walk)? {
            return Err("a run of what was loaded again ends otherwise".to_string());
        }
        Ok(())
    }
}

fn main() {
    let number = |i: usize, default: u64| std::env::args().nth(i).map_or(default, |a| a.parse().expect("a number"));
    let (seed, wanted) = (number(1, 1), number(2, 24_000));
    blocks::watch();
    let (mut random, mut trial) = (Random(seed), Trial::new(!seed));
    let (mut wrong, mut shortest) = (0, None::<(Vec<u8>, String)>);
    for i in 0..wanted {
        let image = rewritten_images::image(&mut random);
        if let Err(what) = trial.image(&image) {
            wrong += 1;
            if shortest.as_ref().is_none_or(|(other, _)| image.len() < other.len()) {
                shortest = Some((image, format!("image {i}, {what}")));
            }
        }
    }
    if let Some((image, what)) = shortest {
        println!("rewritten: {wrong} of {wanted} images of seed {seed} go wrong; the shortest is {what}\n{image:02X?}");
        std::process::exit(1);
    }
    let Trial { met, appended, too_long, picked, .. } = &trial;
    let calls = blocks::calls();
    println!(
        "rewritten: {wanted} images, {appended} with HALT appended, {too_long} then too long to load; {picked} instructions in another order; {calls} calls as \
         worked out; {met}"
    );
    let missing = met.missing();
    if !missing.is_empty() {
        println!("never met: {}", missing.join(", "));
        std::process::exit(1);
    }
}
