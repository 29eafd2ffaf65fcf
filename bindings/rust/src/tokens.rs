//! Tokens of the script language.

/// The token with which a text begins: "" if there is none.
pub(crate) fn token(text: &str) -> &str {
    let length = match text.as_bytes() {
        [b'A'..=b'Z' | b'a'..=b'z', ..] => Some(word(text)),
        [b'-', ..] => number(&text[1..]).map(|length| length + 1),
        [b'0'..=b'9', ..] => number(text),
        [b'\'', ..] => quoted(text),
        [b'>' | b'<', b'=', ..] => Some(2),
        [b'(' | b')' | b',' | b'.' | b'=' | b'*', ..] => Some(1),
        _ => None,
    };
    &text[..length.unwrap_or(0)]
}

/// How many bytes of a word a text begins with.
fn word(text: &str) -> usize {
    let is_part = |byte: &u8| byte.is_ascii_alphanumeric() || *byte == b'_';
    text.bytes().take_while(is_part).count()
}

/// The length of the digits with which a text begins; `None` if there are none, or a letter follows.
fn number(text: &str) -> Option<usize> {
    let length = word(text);
    let is_number = length > 0 && text[..length].bytes().all(|byte| byte.is_ascii_digit());
    is_number.then_some(length)
}

/// The length of the text in quotes, a quote in it doubled, with which a text begins.
fn quoted(text: &str) -> Option<usize> {
    let mut end = 1;
    loop {
        end += text[end..].find('\'')? + 1;
        match text[end..].starts_with('\'') {
            true => end += 1,
            false => return Some(end),
        }
    }
}

#[cfg(test)]
mod tests {
    use super::*;

    #[test]
    fn a_token_is_as_long_as_it_can_be() {
        for (text, wanted) in [
            ("", ""),
            (" a", ""),
            ("a_1-2", "a_1"),
            ("_a", ""),
            ("a\u{e4}", "a"),
            ("-12,3", "-12"),
            ("-", ""),
            ("--1", ""),
            ("007)", "007"),
            ("1a", ""),
            ("'it''s' and", "'it''s'"),
            ("''''", "''''"),
            ("'''", ""),
            ("'\u{e4}\n;'", "'\u{e4}\n;'"),
            (">=1", ">="),
            ("<=", "<="),
            ("> =", ""),
            ("=>", "="),
            ("*from", "*"),
            (";", ""),
        ] {
            assert_eq!(token(text), wanted, "{text}");
        }
    }
}
