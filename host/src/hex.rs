//! Bytes as hexadecimal text.

/// Uppercase digits, as in response files.
pub fn encode(bytes: &[u8]) -> String {
    bytes.iter().map(|byte| format!("{byte:02X}")).collect()
}

/// Reads digits of either case. The text is the reason where it is no hexadecimal.
pub fn decode(text: &str) -> Result<Vec<u8>, String> {
    let digits: Vec<u8> = text.chars().map(digit).collect::<Result<_, _>>()?;
    if digits.len() % 2 == 1 {
        return Err(format!("an odd count of hexadecimal digits, {}", digits.len()));
    }
    Ok(digits.chunks(2).map(|pair| pair[0] << 4 | pair[1]).collect())
}

fn digit(character: char) -> Result<u8, String> {
    match character.to_digit(16) {
        Some(value) => Ok(value as u8),
        None => Err(format!("{character:?} is no hexadecimal digit")),
    }
}
