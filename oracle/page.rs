// The rows of docs/DIFFERENCES.md that have an image. A row's columns: what is so here, in the Rust, why, and the image in the notation
// of notation.rs, or `none` and why; of the first two the text in backquotes at the beginning is compared. A row that is neither is a failure.
#[path = "notation.rs"]
mod notation;

pub struct Row {
    pub here: String,
    pub there: String,
    pub text: String,
    pub image: Vec<u8>,
}

fn quoted(column: &str) -> Option<String> {
    Some(column.strip_prefix('`')?.split('`').next()?.to_string())
}

fn columns(line: &str) -> Vec<&str> {
    line.trim().trim_matches('|').split('|').map(str::trim).collect()
}

fn row(line: &str) -> Option<Row> {
    let columns = columns(line);
    let [here, there, _, image] = columns.as_slice() else { return None };
    let text = quoted(image)?;
    Some(Row { here: quoted(here)?, there: quoted(there)?, image: notation::bytes(&text), text })
}

// A line of a table that has no image: its first two, and a row whose last column says so.
fn has_none(line: &str) -> bool {
    let columns = columns(line);
    let head = columns == ["here", "the Rust", "why", "image"] || columns == ["---"; 4];
    head || columns.last().is_some_and(|image| image.starts_with("none"))
}

// The rows of the page that the program's first argument names, and the lines of its tables that can't be read.
fn rows() -> (Vec<Row>, Vec<String>) {
    let page = std::env::args().nth(1).expect("usage: the page of differences");
    let text = std::fs::read_to_string(page).expect("the page of differences");
    let (mut rows, mut unread) = (Vec::new(), Vec::new());
    for line in text.lines().filter(|line| line.contains('|') && !has_none(line)) {
        match row(line) {
            Some(row) => rows.push(row),
            None => unread.push(line.to_string()),
        }
    }
    (rows, unread)
}

/// What runimage prints at the end, behind the cells.
pub fn ended(cells: &[u64], ending: &str, [steps, pointer, height, calls]: [u64; 4]) -> String {
    let cells: String = cells.iter().map(|c| format!("{c:016x}, ")).collect();
    format!("{cells}end {ending} steps {steps} ip {pointer} height {height} calls {calls}")
}

/// The lines for the rows that can't be read or where an answer isn't what the page says, and the sum; whether there is none and the page
/// has its rows.
pub fn report(side: &str, said: impl Fn(&Row) -> &str, answer: impl Fn(&[u8]) -> String) -> (String, bool) {
    let (rows, unread) = rows();
    let wrong = rows.iter().filter_map(|row| {
        let got = answer(&row.image);
        (got != said(row) || row.here == row.there).then(|| format!("{}: {side} {got}, the page {}\n", row.text, said(row)))
    });
    let wrong: Vec<String> = unread.iter().map(|line| format!("not read: {line}\n")).chain(wrong).collect();
    let sum = format!("{}differences, {side}: {} rows run, {} wrong", wrong.concat(), rows.len(), wrong.len());
    (sum, wrong.is_empty() && rows.len() >= 10)
}
