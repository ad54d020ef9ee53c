//! Numbers and signs as messages show them.

/// A number with commas between each three digits.
pub fn grouped(number: usize) -> String {
    let digits = number.to_string();
    let mut shown = String::new();
    for (at, digit) in digits.chars().enumerate() {
        if at > 0 && (digits.len() - at) % 3 == 0 {
            shown.push(',');
        }
        shown.push(digit);
    }
    shown
}

/// What was found, as a message shows it.
pub fn shown(found: &str) -> String {
    match found.chars().next() {
        Some('\u{fffd}') | None => "a byte that is no character".to_string(),
        Some(c) if c.is_control() => format!("the byte {}", c as u32),
        _ => format!("`{found}`"),
    }
}
