//! The words of TOML: escapes, numbers, dates, `true` and `false`.
use super::Value;

/// Returns whether a character stands for itself in a comment or a string of one line.
pub fn is_plain(c: char) -> bool {
    c == '\t' || c >= ' ' && c != '\x7f'
}

/// Returns the character for which an escape at the start of a text stands, behind its backslash,
/// and its length in bytes.
pub fn escape(text: &str) -> Option<(char, usize)> {
    let len = match text.bytes().next()? {
        b'x' => 2,
        b'u' => 4,
        b'U' => 8,
        byte => return Some((plain_escape(byte)?, 1)),
    };
    let digits = text.get(1..1 + len)?;
    if !digits.bytes().all(|byte| byte.is_ascii_hexdigit()) {
        return None;
    }
    let c = char::from_u32(u32::from_str_radix(digits, 16).ok()?)?;
    Some((c, 1 + len))
}

/// Returns the character for which a backslash and this one stand.
fn plain_escape(byte: u8) -> Option<char> {
    Some(match byte {
        b'b' => '\x08',
        b't' => '\t',
        b'n' => '\n',
        b'f' => '\x0c',
        b'r' => '\r',
        b'e' => '\x1b',
        b'"' => '"',
        b'\\' => '\\',
        _ => return None,
    })
}

/// Returns the word at the start of a text. A date may have a space before its time.
pub fn word_at(text: &str) -> &str {
    let length = |text: &str| text.find(|c| !is_of_word(c)).unwrap_or(text.len());
    let len = length(text);
    match text[len..].strip_prefix(' ') {
        Some(rest) if rest.starts_with(|c: char| c.is_ascii_digit()) => {
            &text[..len + 1 + length(rest)]
        }
        _ => &text[..len],
    }
}

/// Returns whether a number, a date or a word can have this character.
fn is_of_word(c: char) -> bool {
    c.is_ascii_alphanumeric() || matches!(c, '-' | '_' | '+' | '.' | ':')
}

/// Returns the value of a word.
pub fn value(word: &str) -> Option<Value> {
    let behind_digits = word.trim_start_matches(|c: char| c.is_ascii_digit());
    match word {
        "true" => Some(Value::Boolean(true)),
        "false" => Some(Value::Boolean(false)),
        _ if behind_digits.len() < word.len() && behind_digits.starts_with(['-', ':']) => {
            is_date(word).then_some(Value::Other)
        }
        _ => number(word),
    }
}

/// Returns the value of a number.
fn number(word: &str) -> Option<Value> {
    for (prefix, radix) in [("0x", 16), ("0o", 8), ("0b", 2)] {
        if let Some(digits) = word.strip_prefix(prefix) {
            let digits = joined(digits, if radix == 16 { radix } else { 10 })?;
            let is_number = !digits.is_empty() && digits.chars().all(|c| c.is_digit(radix));
            let number = i64::from_str_radix(&digits, radix).ok();
            return number.filter(|_| is_number).map(Value::Integer);
        }
    }
    let word = joined(word, 10)?;
    let size = word.strip_prefix(['+', '-']).unwrap_or(&word);
    if size == "inf" || size == "nan" {
        return Some(Value::Other);
    }
    let mantissa = match size.split_once(['e', 'E']) {
        Some((mantissa, exponent)) => {
            let exponent = exponent.strip_prefix(['+', '-']).unwrap_or(exponent);
            is_digits(exponent).then_some(mantissa)?
        }
        None => size,
    };
    let (whole, fraction) = match mantissa.split_once('.') {
        Some((whole, fraction)) => (whole, Some(fraction)),
        None => (mantissa, None),
    };
    if !is_digits(whole) || whole.len() > 1 && whole.starts_with('0') {
        return None;
    }
    if !fraction.map_or(true, is_digits) {
        return None;
    }
    if mantissa.len() == size.len() && fraction.is_none() {
        return word.parse().ok().map(Value::Integer);
    }
    let number: f64 = word.parse().ok()?;
    number.is_finite().then_some(Value::Other)
}

/// Returns whether a text is one digit or several.
fn is_digits(text: &str) -> bool {
    !text.is_empty() && text.bytes().all(|byte| byte.is_ascii_digit())
}

/// Returns a number without its underscores, each of which has to stand between two digits.
fn joined(word: &str, radix: u32) -> Option<String> {
    let chars: Vec<char> = word.chars().collect();
    let is_digit = |at: usize| chars.get(at).map_or(false, |c| c.is_digit(radix));
    for (at, &c) in chars.iter().enumerate() {
        if c == '_' && !(at > 0 && is_digit(at - 1) && is_digit(at + 1)) {
            return None;
        }
    }
    Some(chars.into_iter().filter(|&c| c != '_').collect())
}

/// Returns whether a word is a date, a time, or both.
fn is_date(word: &str) -> bool {
    if word.as_bytes().get(2) == Some(&b':') {
        return time(word) == Some("");
    }
    let Some(rest) = date(word) else {
        return false;
    };
    match rest.strip_prefix(['T', 't', ' ']) {
        Some(rest) => time(rest).map_or(false, |rest| rest.is_empty() || is_offset(rest)),
        None => rest.is_empty(),
    }
}

/// Returns the number of the two digits at the start of a text, and the rest.
fn two_digits(text: &str) -> Option<(u32, &str)> {
    let digits = text.get(..2).filter(|digits| is_digits(digits))?;
    Some((digits.parse().ok()?, &text[2..]))
}

/// Returns the rest of a text that begins with a date.
fn date(text: &str) -> Option<&str> {
    let (century, rest) = two_digits(text)?;
    let (year, rest) = two_digits(rest)?;
    let (month, rest) = two_digits(rest.strip_prefix('-')?)?;
    let (day, rest) = two_digits(rest.strip_prefix('-')?)?;
    let year = 100 * century + year;
    let is_leap = year % 4 == 0 && (year % 100 != 0 || year % 400 == 0);
    let days = match month {
        2 if is_leap => 29,
        2 => 28,
        4 | 6 | 9 | 11 => 30,
        1..=12 => 31,
        _ => 0,
    };
    (1..=days).contains(&day).then_some(rest)
}

/// Returns the rest of a text that begins with a time.
fn time(text: &str) -> Option<&str> {
    let (hour, rest) = two_digits(text)?;
    let (minute, rest) = two_digits(rest.strip_prefix(':')?)?;
    if hour > 23 || minute > 59 {
        return None;
    }
    let Some(rest) = rest.strip_prefix(':') else {
        return Some(rest);
    };
    let (second, rest) = two_digits(rest)?;
    let rest = match rest.strip_prefix('.') {
        Some(rest) => {
            let behind = rest.trim_start_matches(|c: char| c.is_ascii_digit());
            (behind.len() < rest.len()).then_some(behind)?
        }
        None => rest,
    };
    (second <= 60).then_some(rest)
}

/// Returns whether a text is the offset of a time.
fn is_offset(text: &str) -> bool {
    let offset = || {
        let (hours, rest) = two_digits(text.strip_prefix(['+', '-'])?)?;
        let (minutes, rest) = two_digits(rest.strip_prefix(':')?)?;
        Some(hours < 24 && minutes < 60 && rest.is_empty())
    };
    matches!(text, "Z" | "z") || offset() == Some(true)
}
