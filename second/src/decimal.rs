//! Numbers in decimal without leading zeros, as comma-separated lines have them.

/// The number that a field spells, if it is one or more digits, as many as given at most, without a leading zero. A 0 leads only where a
/// digit follows it.
pub fn number_of(field: &[u8], most_digits: usize) -> Option<u64> {
    let leads = field.len() > 1 && field[0] == b'0';
    let digits = (1..=most_digits).contains(&field.len()) && field.iter().all(u8::is_ascii_digit);
    if leads || !digits {
        return None;
    }
    let value = |sum, digit: &u8| 10 * sum + u64::from(digit - b'0');
    Some(field.iter().fold(0, value))
}

/// The numbers that a line spells between commas, if it is ended by CR LF and each is one.
pub fn numbers_of(line: &[u8], most_digits: usize) -> Option<Vec<u64>> {
    let fields = line.strip_suffix(b"\r\n")?.split(|byte| *byte == b',');
    fields.map(|field| number_of(field, most_digits)).collect()
}
