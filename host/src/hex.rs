//! Bytes as pairs of hexadecimal digits.

use std::fmt::Write;

/// Upper-case pairs, as recipes spell them.
pub fn encode(bytes: &[u8]) -> String {
    bytes
        .iter()
        .fold(String::with_capacity(2 * bytes.len()), |mut text, byte| {
            let _ = write!(text, "{byte:02X}");
            text
        })
}

/// Pairs of digits of either case; else what is wrong with them.
pub fn decode(text: &str) -> Result<Vec<u8>, String> {
    if let Some((at, bad)) = text
        .char_indices()
        .find(|(_, letter)| !letter.is_ascii_hexdigit())
    {
        return Err(format!("'{bad}' at {at} is no hexadecimal digit"));
    }
    if text.len() % 2 == 1 {
        return Err(format!(
            "{} hexadecimal digits make no whole bytes",
            text.len()
        ));
    }
    let digits: Vec<u8> = text
        .bytes()
        .map(|digit| (digit as char).to_digit(16).expect("checked above") as u8)
        .collect();
    Ok(digits
        .chunks(2)
        .map(|pair| pair[0] * 16 + pair[1])
        .collect())
}
