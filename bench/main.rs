// Speed: the original, ours and an interpreter in C on the same images, in one process and in turn; the least of the rounds counts.
// The same program is linked several times, each with more bytes before its code, since the place of a loop in memory moves its
// speed; the report has the mean over these builds.
// Usage: bench measure MILLIONS ROUNDS                        what one build measures, as lines on standard error
//        bench report MILLIONS ROUNDS PICTURE PROGRAM..       runs each program and reports the means
// Reports go to standard error, since the original prints to standard output at each run.
mod engines;
mod images;
mod labels;
mod measures;
mod picture;
#[path = "../oracle/records.rs"]
mod records;
mod report;

std::arch::global_asm!(
    ".section .text.unlikely.bench_pad,\"ax\",@progbits",
    ".globl bench_pad",
    "bench_pad:",
    concat!(".skip ", env!("PAD")),
    ".text"
);

extern "C" {
    static bench_pad: u8;
}

fn main() {
    // the linker keeps what is named
    std::hint::black_box(&raw const bench_pad);
    let arguments: Vec<String> = std::env::args().skip(1).collect();
    let words: Vec<&str> = arguments.iter().map(String::as_str).collect();
    let number = |word: &str| word.parse::<u64>().expect("a number");
    match words[..] {
        ["measure", millions, rounds] => measures::all(1_000_000 * number(millions), number(rounds) as usize),
        ["report", millions, rounds, file, ref programs @ ..] => report::means(millions, rounds, file, programs),
        _ => eprintln!("bench measure MILLIONS ROUNDS | bench report MILLIONS ROUNDS PICTURE PROGRAM.."),
    }
}
