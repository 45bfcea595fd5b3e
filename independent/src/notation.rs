//! Bytes as text, as the vector files write them: `81 00*56 10`, `-` for none.

/// Longer inputs are cut when they are shown; the seed gives them back.
const SHOWN: usize = 4300;

pub fn parse(text: &str) -> Result<Vec<u8>, String> {
    let mut bytes = Vec::new();
    if text.trim() == "-" {
        return Ok(bytes);
    }
    for word in text.split_whitespace() {
        let (digits, count) = word.split_once('*').unwrap_or((word, "1"));
        let count: usize = count.parse().map_err(|_| format!("no count: {word}"))?;
        bytes.extend(vec![byte(digits).ok_or(format!("no byte: {word}"))?; count]);
    }
    if bytes.is_empty() {
        return Err("no bytes, and no - for none".to_string());
    }
    Ok(bytes)
}

fn byte(digits: &str) -> Option<u8> {
    if digits.len() != 2 || !digits.chars().all(|digit| digit.is_ascii_hexdigit()) {
        return None;
    }
    u8::from_str_radix(digits, 16).ok()
}

pub fn show(bytes: &[u8]) -> String {
    if bytes.is_empty() {
        return "-".to_string();
    }
    let shown = &bytes[..bytes.len().min(SHOWN)];
    let mut words: Vec<String> = shown.chunk_by(|one, next| one == next).map(run).collect();
    if shown.len() < bytes.len() {
        words.push(format!("and {} more", bytes.len() - shown.len()));
    }
    words.join(" ")
}

/// Equal bytes: written out up to three, else with their count.
fn run(equal: &[u8]) -> String {
    let digits = format!("{:02X}", equal[0]);
    match equal.len() {
        1..=3 => vec![digits; equal.len()].join(" "),
        count => format!("{digits}*{count}"),
    }
}
