// The original beside ours: loads each image in both, and runs both step by step.
// Usage: oracle-mm [SEED] [IMAGES]. The original prints to standard output and standard error, so the report goes to descriptor 3.
mod compare;
mod edge;
mod images;
#[path = "../lent.rs"]
mod lent;
mod output;
mod report;
#[path = "../rewritten_images.rs"]
mod rewritten_images;
mod shrink;
mod trap;
// rewritten.rs uses more of it
#[allow(dead_code)]
#[path = "../walk.rs"]
mod walk;

use compare::{compare, Verdict, BOUNDARY_STEPS, STEPS};
use images::Random;
use report::Report;
use std::io::Write;

// How many images are of those that rewritten.rs writes out.
const REWRITTEN: u64 = 2_000;

fn hex(bytes: &[u8]) -> String {
    bytes.iter().map(|b| format!("{b:02X} ")).collect()
}

fn main() {
    let number = |i: usize, default: u64| std::env::args().nth(i).map_or(default, |a| a.parse().expect("a number"));
    let (seed, wanted) = (number(1, 1), number(2, 140_000));
    let mut out = output::third();
    std::panic::set_hook(Box::new(|_| {}));
    let mut random = Random(seed);
    let mut report = Report::new();
    let boundary = images::boundary();
    let mut at = 0;
    while at < wanted || report.steps < 5_000_000 {
        let image = match at.checked_sub(boundary.len() as u64) {
            None => boundary[at as usize].clone(),
            Some(k) if k < images::SHORT => images::short(k),
            Some(k) if k < images::SHORT + images::TYPED => images::typed(k - images::SHORT),
            Some(k) if k < images::SHORT + images::TYPED + REWRITTEN => rewritten_images::image(&mut random),
            Some(_) if random.one_in(4) => images::damaged(&mut random),
            Some(_) => images::lively(&mut random),
        };
        let steps = if at < boundary.len() as u64 { BOUNDARY_STEPS } else { STEPS };
        let pieces = random.next();
        if let Verdict::Differs(what) = compare(&image, steps, &mut Random(pieces), &mut report) {
            let again = |bytes: &[u8]| compare(bytes, steps, &mut Random(pieces), &mut Report::new());
            let small = shrink::shrunk(&image, |bytes| matches!(again(bytes), Verdict::Differs(_)));
            let small_what = again(&small);
            writeln!(out, "image {at} of seed {seed} differs: {what}\nshrunk: {}\n{small_what}", hex(&small)).expect("a report");
            std::process::exit(1);
        }
        at += 1;
        if at % 100_000 == 0 {
            writeln!(out, "{at} images, {} steps", report.steps).expect("a report");
        }
    }
    let missing = report.missing();
    writeln!(out, "{report}").expect("a report");
    if !missing.is_empty() {
        writeln!(out, "never compared: {}", missing.join(", ")).expect("a report");
        std::process::exit(1);
    }
}
