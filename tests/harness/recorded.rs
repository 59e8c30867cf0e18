//! Recorded vectors: files of one JSON object a line, and the cases made from them.

use std::path::PathBuf;

use super::json::Json;

/// A recorded input with what is known of its outcome.
pub struct Recorded {
    /// The file's name without its ending, a slash, and the name in the file.
    pub name: String,
    pub data: Vec<u8>,
    pub calendars: Vec<u8>,
    pub question: Vec<u8>,
    pub check: u32,
    pub plan: Option<String>,
    pub greatest: Option<u64>,
    pub length: Option<u64>,
    pub words: Option<Vec<i64>>,
}

/// A case of the program `test_vectors`: its name, data, calendars and question.
pub struct Case {
    pub name: String,
    pub data: Vec<u8>,
    pub calendars: Vec<u8>,
    pub question: Vec<u8>,
}

/// The cases in the folder of the program `test_vectors`.
pub fn cases_in(folder: &str) -> Result<Vec<Case>, String> {
    let read = |name: &str| {
        let path = format!("{folder}/{name}");
        std::fs::read(&path).map_err(|error| format!("{path}: {error}"))
    };
    let names = String::from_utf8_lossy(&read("names")?).into_owned();
    let bytes = read("data/cases")?;
    let mut left: &[u8] = &bytes;
    let mut take = |count: usize| {
        let (part, rest) = left.split_at_checked(count).ok_or("a case is cut short")?;
        left = rest;
        Ok::<Vec<u8>, String>(part.to_vec())
    };
    let mut cases = Vec::new();
    for name in names.lines() {
        let header = take(7)?;
        let length = |at: usize| usize::from(u16::from_le_bytes([header[at], header[at + 1]]));
        cases.push(Case {
            name: name.to_string(),
            data: take(length(1))?,
            calendars: take(length(3))?,
            question: take(length(5))?,
        });
    }
    Ok(cases)
}

/// The vectors in `recorded/` of that folder: file after file by name, each in its own order.
pub fn recorded_in(folder: &str) -> Result<Vec<Recorded>, String> {
    read_lines(&format!("{folder}/recorded"), Recorded::of_line)
}

/// What stands in the files of a folder, one a line: file after file by name, each in its own order.
/// It is read by the file's name without its ending and the line's object.
pub fn read_lines<T>(folder: &str, read: fn(&str, &Json) -> Option<T>) -> Result<Vec<T>, String> {
    let mut all = Vec::new();
    for path in paths_in(folder)? {
        let shown = path.display();
        let text = std::fs::read_to_string(&path).map_err(|error| format!("{shown}: {error}"))?;
        let file = path.file_stem().unwrap_or_default().to_string_lossy();
        let before = all.len();
        for line in text.lines() {
            let item = Json::of_line(line).and_then(|object| read(&file, &object));
            all.push(item.ok_or(format!("{shown}: cannot be read: {line}"))?);
        }
        if all.len() == before {
            return Err(format!("{shown}: empty"));
        }
    }
    Ok(all)
}

fn paths_in(folder: &str) -> Result<Vec<PathBuf>, String> {
    let at = |error| format!("{folder}: {error}");
    let mut paths = Vec::new();
    for entry in std::fs::read_dir(folder).map_err(at)? {
        paths.push(entry.map_err(at)?.path());
    }
    paths.sort();
    Ok(paths)
}

impl Recorded {
    fn of_line(file: &str, line: &Json) -> Option<Recorded> {
        let unsigned = |key: &str| line.get(key).and_then(Json::unsigned);
        Some(Recorded {
            name: format!("{file}/{}", line.get("name")?.text()?),
            data: line.get("data")?.bytes()?,
            calendars: bytes_or_none(line.get("calendars"))?,
            question: line.get("question")?.bytes()?,
            check: u32::try_from(unsigned("check")?).ok()?,
            plan: line.get("plan").and_then(Json::text).map(str::to_string),
            greatest: unsigned("G"),
            length: unsigned("length"),
            words: line.get("words").and_then(Json::words),
        })
    }
}

/// Bytes in hexadecimal; none where a line does not have them.
pub fn bytes_or_none(bytes: Option<&Json>) -> Option<Vec<u8>> {
    bytes.map_or(Some(Vec::new()), Json::bytes)
}

pub fn bytes_of_hex(text: &str) -> Option<Vec<u8>> {
    let digits: Option<Vec<u32>> = text.chars().map(|digit| digit.to_digit(16)).collect();
    let pairs = digits?;
    let byte = |pair: &[u32]| match pair {
        [high, low] => u8::try_from(high.checked_mul(16)?.checked_add(*low)?).ok(),
        _ => None,
    };
    pairs.chunks(2).map(byte).collect()
}
