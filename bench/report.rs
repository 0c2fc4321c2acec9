// The means over the builds, as the tables of docs/BENCHMARKS.md.
use crate::picture;
use std::process::{Command, Stdio};

/// A thing measured: its name, and its numbers in each build.
type Row = (String, Vec<Vec<f64>>);

fn measured(program: &str, millions: &str, rounds: &str) -> Vec<(String, Vec<f64>)> {
    let out = Command::new(program).args(["measure", millions, rounds]).stdout(Stdio::null()).output().expect("the build runs");
    assert!(out.status.success(), "{program}: {}", String::from_utf8_lossy(&out.stderr));
    let text = String::from_utf8(out.stderr).expect("text");
    text.lines()
        .map(|line| {
            let mut parts = line.split('\t');
            let name = parts.next().expect("a name").to_string();
            (name, parts.map(|n| n.parse().expect("a number")).collect())
        })
        .collect()
}

fn gathered(millions: &str, rounds: &str, programs: &[&str]) -> Vec<Row> {
    let mut rows: Vec<Row> = Vec::new();
    for program in programs {
        for (i, (name, numbers)) in measured(program, millions, rounds).into_iter().enumerate() {
            if rows.len() == i {
                rows.push((name, Vec::new()));
            }
            rows[i].1.push(numbers);
        }
    }
    rows
}

fn mean(row: &Row, i: usize) -> f64 {
    row.1.iter().map(|numbers| numbers[i]).sum::<f64>() / row.1.len() as f64
}

fn long_runs(rows: &[&Row]) {
    eprintln!("| image | Rust | ours | least to most | C | Rust / ours | ours / C |\n|---|---|---|---|---|---|---|");
    let mut ratios = 0.0;
    for row in rows {
        let (rust, ours, c) = (mean(row, 0), mean(row, 1), mean(row, 2));
        let least = row.1.iter().fold(f64::INFINITY, |a, n| a.min(n[1]));
        let most = row.1.iter().fold(0.0, |a: f64, n| a.max(n[1]));
        let name = &row.0[5..];
        ratios += ours / c;
        eprintln!("| {name} | {rust:.2} | {ours:.2} | {least:.2} to {most:.2} | {c:.2} | {:.1} | {:.2} |", rust / ours, ours / c);
    }
    eprintln!("\nours / C, mean over the images: {:.2}", ratios / rows.len() as f64);
}

fn short_runs(rows: &[&Row]) {
    eprintln!("\n| instructions | limit 1 | limit 50 |\n|---|---|---|");
    for row in rows {
        eprintln!("| {} | {:.0} | {:.0} |", &row.0[7..], mean(row, 0), mean(row, 1));
    }
}

fn load_and_encode(rows: &[&Row]) {
    eprintln!(
        "\n| | bytes | instructions | Rust MB/s | ours MB/s | times faster | ours, ns an instruction |\n|---|---|---|---|---|---|---|"
    );
    for row in rows {
        let (rust, ours, bytes, count) = (mean(row, 0), mean(row, 1), mean(row, 2), mean(row, 3));
        let rate = |ns: f64| 1e3 * bytes / ns;
        let (r, o) = (rate(rust), rate(ours));
        eprintln!("| {} | {bytes} | {count} | {r:.0} | {o:.0} | {:.1} | {:.1} |", row.0, rust / ours, ours / count);
    }
}

fn room(rows: &[&Row]) {
    eprintln!("\n| the room asked for | instructions | ns an instruction | of encoding's time |\n|---|---|---|---|");
    for row in rows {
        let (asked, encoded, count) = (mean(row, 0), mean(row, 1), mean(row, 2));
        eprintln!("| {} | {count} | {:.1} | {:.2} |", &row.0[6..], asked / count, asked / encoded);
    }
}

fn records(rows: &[&Row]) {
    eprintln!("\n| through label records, in place | core | in place | in place / core |\n|---|---|---|---|");
    for row in rows {
        let (core, here) = (mean(row, 0), mean(row, 1));
        eprintln!("| {} | {core:.2} | {here:.2} | {:.2} |", &row.0[9..], here / core);
    }
}

pub fn means(millions: &str, rounds: &str, file: &str, programs: &[&str]) {
    let rows = gathered(millions, rounds, programs);
    let named = |start: &str| rows.iter().filter(|row| row.0.starts_with(start)).collect::<Vec<_>>();
    eprintln!("ns a step, the mean of {} builds, in each the least of {rounds} rounds of {millions},000,000 steps\n", programs.len());
    long_runs(&named("run: "));
    eprintln!("\nevery third step a dump, ours: {:.2} ns a step", mean(named("dumps")[0], 0));
    short_runs(&named("short: "));
    let once = named("straight")[0];
    let (rust, ours, alone) = (mean(once, 0), mean(once, 1), mean(once, 2));
    eprintln!("\nstraight code that runs once, ns an instruction: load and run Rust {rust:.1}, ours {ours:.1}, {:.1} times faster; our run alone {alone:.1}", rust / ours);
    load_and_encode(&rows.iter().filter(|row| row.0.contains(", ") && !row.0.contains(": ")).collect::<Vec<_>>());
    room(&named("room: "));
    records(&named("records: "));
    let bars: Vec<(String, [f64; 3])> =
        named("run: ").iter().map(|row| (row.0[5..].to_string(), [mean(row, 0), mean(row, 1), mean(row, 2)])).collect();
    std::fs::write(file, picture::svg(&bars)).expect("the picture is written");
}
