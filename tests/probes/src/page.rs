//! The probes of a page: in each table whose last column is `probe`, a row's id is the first word,
//! and its last cell holds probes of the form `ID.N STEP, STEP: ANSWER, ANSWER / the book's`.

/// A row of the page.
pub struct Row {
    /// Its id, as `C8`.
    pub id: String,
    /// Its probes.
    pub probes: Vec<Probe>,
}

/// What is done, and what has to come of it.
pub struct Probe {
    /// Its name, as `C8.1`.
    pub name: String,
    /// Changes, requests and recorder calls, in order.
    pub steps: Vec<String>,
    /// The parts of Galitzaf's answer.
    pub wanted: Vec<String>,
}

/// All rows of the tables that have probes.
pub fn rows(page: &str) -> Vec<Row> {
    let mut rows = Vec::new();
    let mut probed = false;
    for line in page.lines() {
        if !line.starts_with('|') {
            probed = false;
        } else if line.starts_with("| id") {
            probed = line.ends_with("| probe |");
        } else if probed && !line.starts_with("|---") {
            rows.push(row(line));
        }
    }
    rows
}

fn row(line: &str) -> Row {
    let plain = line.replace(['`', '*'], "");
    let cells: Vec<&str> = plain.trim_matches('|').split(" | ").collect();
    let word = |cell: &str| cell.split_whitespace().next().unwrap_or("").to_string();
    let id = cells.first().map_or(String::new(), |cell| word(cell));
    let last = cells.last().unwrap_or(&"");
    let probes = pieces(last, &id).into_iter().map(probe).collect();
    Row { id, probes }
}

/// A cell cut before each word `ID.N`.
fn pieces<'a>(cell: &'a str, id: &str) -> Vec<&'a str> {
    let start = format!("{id}.");
    let mut starts: Vec<usize> = cell.match_indices(&start).map(|(at, _)| at).collect();
    starts.push(cell.len());
    let pairs = starts.windows(2);
    pairs.map(|pair| &cell[pair[0]..pair[1]]).collect()
}

/// One that can't be cut so has no wanted answer, which is told when it is made.
fn probe(piece: &str) -> Probe {
    let (name, rest) = piece.split_once(' ').unwrap_or((piece, ""));
    let (steps, rest) = rest.split_once(": ").unwrap_or((rest, ""));
    let (wanted, _) = rest.split_once(" / ").unwrap_or(("", ""));
    let parts = |text: &str| {
        text.split(", ")
            .map(|part| part.trim().to_string())
            .collect()
    };
    Probe {
        name: name.to_string(),
        steps: parts(steps),
        wanted: parts(wanted),
    }
}
