// A small reader of declarations, C's and Rust's: each call and each struct as one line of C.

// Words and single signs; comments, attributes and lines of the preprocessor are left out.
fn tokens(text: &str) -> Vec<String> {
    let mut out: Vec<String> = Vec::new();
    let mut joined = false;
    for sign in without_comments(text).chars() {
        let in_word = sign.is_ascii_alphanumeric() || sign == '_';
        match out.last_mut() {
            Some(word) if in_word && joined => word.push(sign),
            _ if !sign.is_whitespace() => out.push(sign.to_string()),
            _ => {}
        }
        joined = in_word;
    }
    out
}

fn without_comments(text: &str) -> String {
    let mut out = String::new();
    let mut rest = text;
    while let Some((before, comment)) = rest.split_once("/*") {
        out.push_str(before);
        rest = comment.split_once("*/").expect("a comment ends").1;
    }
    out.push_str(rest);
    let code = |line: &&str| !line.trim_start().starts_with("//") && !line.trim_start().starts_with('#');
    out.lines().filter(code).map(|line| format!("{line}\n")).collect()
}

// Where the bracket behind this index closes.
fn closed(tokens: &[String], from: usize, close: &str) -> usize {
    from + tokens[from..].iter().position(|token| token == close).expect("a bracket closes")
}

// What stands between the bracket at this index and the one that closes it: arguments or fields, each read by `read`.
fn inside(tokens: &[String], open: usize, close: &str, split: &str, read: fn(&[String]) -> String) -> String {
    let all = &tokens[open + 1..closed(tokens, open, close)];
    // the last one may have the sign behind it too
    let each = all.split(|token| token == split).filter(|part| !part.is_empty());
    each.map(read).collect::<Vec<_>>().join(", ")
}

fn c_field(part: &[String]) -> String {
    part.join(" ")
}

// `name: type` in C's order and words
fn rust_field(part: &[String]) -> String {
    let part = part.strip_prefix(&["pub".to_string()]).unwrap_or(part);
    let [name, colon, kind @ ..] = part else { panic!("no field: {part:?}") };
    assert_eq!(colon, ":");
    format!("{} {name}", c_kind(&kind.join(" ")))
}

fn c_kind(rust: &str) -> &'static str {
    match rust {
        "* const u8" => "const uint8_t *",
        "* mut u8" => "uint8_t *",
        "usize" => "size_t",
        "u64" => "uint64_t",
        _ => panic!("a type that the header has no word for: {rust}"),
    }
}

fn c_struct(rust: &str) -> String {
    format!("struct mm_{}", rust.to_lowercase())
}

/// Every prototype of a header; a function with a body is none.
pub fn c_calls(text: &str) -> Vec<String> {
    let tokens = tokens(text);
    let is_call = |i: &usize| tokens[*i].starts_with("mm_") && tokens[i + 1] == "(" && tokens[closed(&tokens, *i, ")") + 1] == ";";
    let call = |i: usize| format!("{} {}({})", tokens[i - 2..i].join(" "), tokens[i], inside(&tokens, i + 1, ")", ",", c_field));
    (2..tokens.len() - 1).filter(is_call).map(call).collect()
}

/// Every `fn mm_..` of a Rust file.
pub fn rust_calls(text: &str) -> Vec<String> {
    let tokens = tokens(text);
    let is_call = |i: &usize| tokens[i - 1] == "fn" && tokens[*i].starts_with("mm_");
    let call = |i: usize| {
        // behind the bracket stand `-`, `>` and the answer
        let answer = c_struct(&tokens[closed(&tokens, i, ")") + 3]);
        format!("{answer} {}({})", tokens[i], inside(&tokens, i + 1, ")", ",", rust_field))
    };
    (1..tokens.len()).filter(is_call).map(call).collect()
}

/// Every `struct NAME { .. }` of a header.
pub fn c_structs(text: &str) -> Vec<String> {
    let tokens = tokens(text);
    let is_struct = |i: &usize| tokens[i - 1] == "struct" && tokens[i + 1] == "{";
    let one = |i: usize| format!("struct {} {{ {} }}", tokens[i], inside(&tokens, i + 1, "}", ";", c_field));
    (1..tokens.len() - 1).filter(is_struct).map(one).collect()
}

/// Every struct of a Rust file that has C's layout.
pub fn rust_structs(text: &str) -> Vec<String> {
    let one = |from: &str| {
        let tokens = tokens(from);
        let name = 1 + tokens.iter().position(|token| token == "struct").expect("a struct behind repr(C)");
        format!("{} {{ {} }}", c_struct(&tokens[name]), inside(&tokens, name + 1, "}", ",", rust_field))
    };
    text.split("#[repr(C)]").skip(1).map(one).collect()
}
