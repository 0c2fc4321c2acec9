// Runs a program on the images of images.txt, each on its standard input, and compares what it prints; and on an input that can't be read.
// Usage: oracle-images PROGRAM IMAGES
mod notation;

use notation::bytes;
use std::io::Write;
use std::process::{exit, Command, Stdio};

struct Image {
    name: String,
    bytes: Vec<u8>,
    lines: Vec<String>,
}

// A line `print TEXT`, or `print TEXT *N` for N such lines.
fn printed(text: &str, lines: &mut Vec<String>) {
    let (line, times) = text.split_once(" *").unwrap_or((text, "1"));
    for _ in 0..times.parse::<usize>().expect("a number of lines") {
        lines.push(line.to_string());
    }
}

fn parse(text: &str) -> Vec<Image> {
    let mut all: Vec<Image> = Vec::new();
    for line in text.lines() {
        let (key, rest) = line.split_once(' ').unwrap_or((line, ""));
        if key == "image" {
            all.push(Image { name: rest.to_string(), bytes: Vec::new(), lines: Vec::new() });
        }
        let Some(image) = all.last_mut() else { continue };
        match key {
            "bytes" => image.bytes = bytes(rest),
            "print" => printed(rest, &mut image.lines),
            _ => {}
        }
    }
    all
}

fn run(program: &str, image: &[u8]) -> std::io::Result<(String, bool)> {
    let mut child = Command::new(program).stdin(Stdio::piped()).stdout(Stdio::piped()).spawn()?;
    // a program that has seen enough may close its input
    let _ = child.stdin.take().expect("a pipe").write_all(image);
    let out = child.wait_with_output()?;
    Ok((String::from_utf8_lossy(&out.stdout).into_owned(), out.status.success()))
}

// An input that can't be read, as a folder: a message, status 1 and no output.
fn tells_unreadable(program: &str) -> bool {
    let folder = std::fs::File::open(".").expect("this folder");
    let out = Command::new(program).stdin(folder).output().expect("the program runs");
    out.stdout.is_empty() && !out.stderr.is_empty() && out.status.code() == Some(1)
}

fn main() {
    let arguments: Vec<String> = std::env::args().collect();
    let [_, program, images] = arguments.as_slice() else {
        eprintln!("usage: oracle-images PROGRAM IMAGES");
        exit(2);
    };
    let text = std::fs::read_to_string(images).expect("the file of images");
    let all = parse(&text);
    let mut wrong = 0;
    for image in &all {
        let (got, success) = run(program, &image.bytes).expect("the program runs");
        let mut want = image.lines.join("\n");
        want.push('\n');
        if got != want || !success {
            wrong += 1;
            println!("{}: wanted\n{want}and got (success: {success})\n{got}", image.name);
        }
    }
    if !tells_unreadable(program) {
        wrong += 1;
        println!("an input that can't be read: not status 1 with a message and no output");
    }
    println!("images: {} run, {wrong} wrong", all.len());
    if wrong > 0 || all.len() < 20 {
        exit(1);
    }
}
