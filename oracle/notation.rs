//! Images as text. Bytes are hexadecimal; S is LABEL `_start`; HH=CELL is the first byte HH with eight operand bytes, lowest first; HH"name" one with
//! a name; ( .. )*N repeats.

fn hex(digits: &str) -> u64 {
    u64::from_str_radix(digits, 16).unwrap_or_else(|_| panic!("no hexadecimal number: {digits}"))
}

// The bytes of one word.
fn token(word: &str, out: &mut Vec<u8>) {
    if word == "S" {
        token("15\"_start\"", out);
    } else if let Some((op, cell)) = word.split_once('=') {
        out.push(hex(op) as u8);
        out.extend_from_slice(&hex(cell).to_le_bytes());
    } else if let Some((op, name)) = word.split_once('"') {
        let name = name.trim_end_matches('"');
        out.push(hex(op) as u8);
        out.extend_from_slice(&(name.len() as u64).to_le_bytes());
        out.extend_from_slice(name.as_bytes());
    } else {
        out.push(hex(word) as u8);
    }
}

/// The bytes of a text in this notation.
pub fn bytes(words: &str) -> Vec<u8> {
    let mut out = Vec::new();
    let mut from = 0;
    for word in words.split_whitespace() {
        if word == "(" {
            from = out.len();
        } else if let Some(times) = word.strip_prefix(")*") {
            let group = out[from..].to_vec();
            for _ in 1..times.parse::<usize>().expect("a number of times") {
                out.extend_from_slice(&group);
            }
        } else {
            token(word, &mut out);
        }
    }
    out
}
