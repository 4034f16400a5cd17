//! Numbers as they are written in sessions and arguments.

/// Reads a number in plain digits; nothing where there is anything else, or too much.
pub fn number<N: std::str::FromStr>(digits: &str) -> Option<N> {
    if digits.is_empty() || !digits.bytes().all(|byte| byte.is_ascii_digit()) {
        return None;
    }
    digits.parse().ok()
}
