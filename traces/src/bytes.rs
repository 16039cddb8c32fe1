//! Bytes as text: hex, `-` for none, and `@LENGTH:START` for a body by a pattern.
use std::fmt::Write;

/// From how many bytes on a body that follows the pattern is written as one.
const LEAST_PATTERN: usize = 24;

pub fn hex(bytes: &[u8]) -> String {
    if bytes.is_empty() {
        return "-".into();
    }
    bytes.iter().fold(String::with_capacity(2 * bytes.len()), |mut text, byte| {
        let _ = write!(text, "{byte:02x}");
        text
    })
}

pub fn unhex(text: &str) -> Result<Vec<u8>, String> {
    if text == "-" {
        return Ok(Vec::new());
    }
    let digits = text.as_bytes();
    if digits.is_empty() || !digits.len().is_multiple_of(2) {
        return Err(format!("no whole bytes in hex: {text:?}"));
    }
    let digit = |byte: u8| (byte as char).to_digit(16).ok_or_else(|| format!("not hex: {text:?}"));
    digits.chunks(2).map(|pair| Ok((digit(pair[0])? * 16 + digit(pair[1])?) as u8)).collect()
}

/// The bytes that `@LENGTH:START` stands for.
pub fn pattern(length: usize, start: u8) -> Vec<u8> {
    (0..length).map(|i| (usize::from(start) + 7 * i + i / 256) as u8).collect()
}

pub fn body_text(body: &[u8]) -> String {
    if body.len() >= LEAST_PATTERN && *body == pattern(body.len(), body[0])[..] {
        return format!("@{}:{}", body.len(), body[0]);
    }
    hex(body)
}

pub fn body_bytes(text: &str) -> Result<Vec<u8>, String> {
    let Some(rest) = text.strip_prefix('@') else { return unhex(text) };
    let (length, start) = rest.split_once(':').ok_or_else(|| format!("not @LENGTH:START: {text:?}"))?;
    match (length.parse::<u32>(), start.parse()) {
        (Ok(length), Ok(start)) => Ok(pattern(length as usize, start)),
        _ => Err(format!("not @LENGTH:START: {text:?}")),
    }
}
