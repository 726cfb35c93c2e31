//! Bytes as upper-case hexadecimal digits.

/// Two digits for each byte.
pub fn hex(bytes: &[u8]) -> String {
    bytes.iter().map(|byte| format!("{byte:02X}")).collect()
}

/// The bytes that the digits give; nothing where one is not an upper-case digit, or there is an odd number of them.
pub fn bytes(digits: &str) -> Option<Vec<u8>> {
    let values: Option<Vec<u8>> = digits.bytes().map(value).collect();
    let values = values?;
    (values.len() % 2 == 0).then(|| values.chunks(2).map(|pair| 16 * pair[0] + pair[1]).collect())
}

fn value(digit: u8) -> Option<u8> {
    match digit {
        b'0'..=b'9' => Some(digit - b'0'),
        b'A'..=b'F' => Some(digit - b'A' + 10),
        _ => None,
    }
}
