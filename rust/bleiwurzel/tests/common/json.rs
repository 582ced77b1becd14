//! Whether a text is one JSON value: a reader of its own, which knows nothing of how the tool writes.

pub fn is_json(text: &str) -> bool {
    let bytes = text.trim().as_bytes();
    value(bytes) == Some(bytes.len())
}

fn blanks(b: &[u8]) -> usize {
    b.iter().take_while(|byte| byte.is_ascii_whitespace()).count()
}

/// How many bytes the value at the start takes.
fn value(b: &[u8]) -> Option<usize> {
    match b.first()? {
        b'{' => items(b, b'}', |b| {
            let name = string(b)?;
            let colon = name + blanks(&b[name..]);
            (b.get(colon) == Some(&b':')).then_some(())?;
            let at = colon + 1 + blanks(&b[colon + 1..]);
            Some(at + value(&b[at..])?)
        }),
        b'[' => items(b, b']', value),
        b'"' => string(b),
        b'0'..=b'9' => Some(b.iter().take_while(|byte| byte.is_ascii_digit()).count()),
        _ => [&b"true"[..], b"false", b"null"].iter().find(|word| b.starts_with(word)).map(|word| word.len()),
    }
}

fn items(b: &[u8], end: u8, item: impl Fn(&[u8]) -> Option<usize>) -> Option<usize> {
    let mut at = 1 + blanks(&b[1..]);
    if b.get(at) == Some(&end) {
        return Some(at + 1);
    }
    loop {
        at += item(&b[at..])?;
        at += blanks(&b[at..]);
        let byte = *b.get(at)?;
        at += 1 + blanks(&b[at + 1..]);
        if byte == end {
            return Some(at);
        }
        (byte == b',').then_some(())?;
    }
}

fn string(b: &[u8]) -> Option<usize> {
    (b.first() == Some(&b'"')).then_some(())?;
    let mut at = 1;
    loop {
        match *b.get(at)? {
            b'"' => return Some(at + 1),
            b'\\' => match *b.get(at + 1)? {
                b'u' => at += 6,
                b'"' | b'\\' | b'/' | b'b' | b'f' | b'n' | b'r' | b't' => at += 2,
                _ => return None,
            },
            byte if byte < 0x20 => return None,
            _ => at += 1,
        }
    }
}

#[test]
fn some_are_and_some_are_not() {
    for good in ["{}", "[]", "{\"a\": [1, null, {\"b\": \"\\u0001\\\"\"}]}", "\"x\"", "12"] {
        assert!(is_json(good), "{good}");
    }
    for bad in ["", "{", "[1,]", "{a: 1}", "{\"a\" 1}", "\"\n\"", "\"\\x\"", "1 2", "{} {}"] {
        assert!(!is_json(bad), "{bad}");
    }
}
