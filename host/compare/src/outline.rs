//! Bytes that are no problem, in a notation that can be read: the fields as far as there are any.

use crate::hex::hex;

/// The fields that the bytes begin with, and `!` before what is not one. A field is its tag and, in brackets, its fixed part
/// in hexadecimal and its inner fields.
pub fn outline(bytes: &[u8]) -> String {
    let mut parts = Vec::new();
    let mut rest = bytes;
    while !rest.is_empty() {
        let Some((tag, content, after)) = first(rest) else {
            parts.push(format!("!{}", hex(rest)));
            break;
        };
        parts.push(format!("{tag}[{}]", inside(tag, content)));
        rest = after;
    }
    parts.join(" ")
}

/// The first field's tag and content, and what comes after it.
fn first(bytes: &[u8]) -> Option<(u8, &[u8], &[u8])> {
    let (head, rest) = bytes.split_at_checked(3)?;
    let length = usize::from(u16::from_be_bytes([head[1], head[2]]));
    let (content, after) = rest.split_at_checked(length)?;
    Some((head[0], content, after))
}

/// The content of a field with this tag: its fixed part, and the fields in it.
fn inside(tag: u8, content: &[u8]) -> String {
    let fixed = match tag {
        3 | 7 => 0,
        4 => 4,
        6 | 8 | 9 => 1,
        _ => content.len(),
    };
    let (fixed, fields) = content.split_at(fixed.min(content.len()));
    format!("{} {}", hex(fixed), outline(fields)).trim().to_string()
}

#[cfg(test)]
mod tests {
    use super::outline;

    #[test]
    fn fields_and_what_is_none() {
        let problem = [7, 0, 13, 6, 0, 5, 0, 5, 0, 1, 1, 1, 0, 2, 0, 5];
        assert_eq!(outline(&problem), "7[6[00 5[01]] 1[0005]]");
        assert_eq!(outline(&[7, 0, 5, 1, 0, 9, 0, 5, 4]), "7[!0100090005] !04");
        assert_eq!(outline(&[4, 0, 2, 0, 1]), "4[0001]");
    }
}
