//! RFC 9309's UTF8-char-noctl, written as the grammar has it.

/// Whether the octets are `*UTF8-char-noctl`.
pub(crate) fn is_chars_noctl(mut octets: &[u8]) -> bool {
    while !octets.is_empty() {
        match char_length(octets) {
            Some(length) => octets = &octets[length..],
            None => return false,
        }
    }
    true
}

/// The octets of the character that stands at the front, if one does.
fn char_length(octets: &[u8]) -> Option<usize> {
    match octets {
        // UTF8-1-noctl
        [0x21 | 0x22 | 0x24..=0x7F, ..] => Some(1),
        // UTF8-2
        [0xC2..=0xDF, 0x80..=0xBF, ..] => Some(2),
        // UTF8-3
        [0xE0, 0xA0..=0xBF, 0x80..=0xBF, ..]
        | [0xE1..=0xEC, 0x80..=0xBF, 0x80..=0xBF, ..]
        | [0xED, 0x80..=0x9F, 0x80..=0xBF, ..]
        | [0xEE..=0xEF, 0x80..=0xBF, 0x80..=0xBF, ..] => Some(3),
        // UTF8-4
        [0xF0, 0x90..=0xBF, 0x80..=0xBF, 0x80..=0xBF, ..]
        | [0xF1..=0xF3, 0x80..=0xBF, 0x80..=0xBF, 0x80..=0xBF, ..]
        | [0xF4, 0x80..=0x8F, 0x80..=0xBF, 0x80..=0xBF, ..] => Some(4),
        _ => None,
    }
}

#[cfg(test)]
mod tests {
    use super::is_chars_noctl;

    /// The standard library's notion of UTF-8, less the octets under 0x21
    /// and "#", is the same set: compared for all strings of one and two
    /// octets, and for all three- and four-octet ones over the borders.
    #[test]
    fn agrees_with_the_standard_library() {
        let borders: Vec<u8> = vec![
            0x00, 0x20, 0x21, 0x22, 0x23, 0x24, 0x7E, 0x7F, 0x80, 0x8F, 0x90, 0x9F, 0xA0, 0xBF,
            0xC0, 0xC1, 0xC2, 0xDF, 0xE0, 0xE1, 0xEC, 0xED, 0xEE, 0xEF, 0xF0, 0xF1, 0xF3, 0xF4,
            0xF5, 0xFF,
        ];
        let all: Vec<u8> = (0..=255).collect();
        check(&[&all]);
        check(&[&all, &all]);
        check(&[&borders, &borders, &borders]);
        check(&[&borders, &borders, &borders, &borders]);
    }

    fn check(choices: &[&[u8]]) {
        let mut text = Vec::new();
        check_from(choices, &mut text);
    }

    fn check_from(choices: &[&[u8]], text: &mut Vec<u8>) {
        let Some((first, rest)) = choices.split_first() else {
            let expected = std::str::from_utf8(text).is_ok()
                && text.iter().all(|octet| *octet >= 0x21 && *octet != b'#');
            assert_eq!(is_chars_noctl(text), expected, "{text:02X?}");
            return;
        };
        for octet in first.iter() {
            text.push(*octet);
            check_from(rest, text);
            text.pop();
        }
    }
}
