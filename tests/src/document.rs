//! What a test reads out of one of the project's documents, to hold its numbers to the programs.

/// The whole of a document, by its name in `docs/`. It is read when the test runs, so that it is judged
/// as it stands.
pub fn document(name: &str) -> String {
    let path = format!("{}/../docs/{name}", env!("CARGO_MANIFEST_DIR"));
    std::fs::read_to_string(&path).unwrap_or_else(|error| panic!("{path}: {error}"))
}

/// The cells of each row of the table that has this first line.
pub fn table<'a>(document: &'a str, first: &str) -> Vec<Vec<&'a str>> {
    assert_eq!(document.lines().filter(|&line| line == first).count(), 1, "tables '{first}'");
    let lines = document.lines().skip_while(|&line| line != first);
    let rows = lines.skip(2).take_while(|line| line.starts_with('|'));
    let rows: Vec<_> = rows.map(cells).collect();
    let columns = cells(first).len();
    assert!(!rows.is_empty() && rows.iter().all(|row| row.len() == columns), "table '{first}'");
    rows
}

fn cells(line: &str) -> Vec<&str> {
    line.trim_matches('|').split('|').map(str::trim).collect()
}

/// The lines of the first fenced part below this heading.
pub fn fenced<'a>(document: &'a str, heading: &str) -> Vec<&'a str> {
    assert_eq!(document.lines().filter(|&line| line == heading).count(), 1, "parts '{heading}'");
    let below = document.lines().skip_while(|&line| line != heading).skip(1);
    let lines = below.take_while(|line| !line.starts_with('#')).skip_while(|&line| line != "```");
    lines.skip(1).take_while(|&line| line != "```").collect()
}

pub fn number(cell: &str) -> u32 {
    cell.parse().unwrap_or_else(|_| panic!("'{cell}' is not a number"))
}

/// The numbers of a cell such as "7, 11".
pub fn numbers(cell: &str) -> Vec<u32> {
    cell.split(", ").map(number).collect()
}

/// The number of a cell, if it has one: "-" says that there is none.
pub fn optional(cell: &str) -> Option<u32> {
    (cell != "-").then(|| number(cell))
}

/// Both ends of a cell such as "7", "10, 11" or "16..253".
pub fn ends(cell: &str) -> (usize, usize) {
    let (first, last) = cell.split_once("..").or(cell.split_once(", ")).unwrap_or((cell, cell));
    (number(first) as usize, number(last) as usize)
}
