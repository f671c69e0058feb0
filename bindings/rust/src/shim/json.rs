//! JSON, written token by token: without spaces, and with the shortest escapes.
use super::alloc::AllocError;

/// A writer that appends tokens to a text. It puts commas and colons, and leaves the nesting to its
/// caller.
pub struct Writer {
    out: Vec<u8>,
    /// Whether the last token ended a value, so that a comma is in front of the next one.
    is_after_value: bool,
}

impl Writer {
    /// Returns a writer that appends to a text.
    pub fn new(out: Vec<u8>) -> Writer {
        Writer {
            out,
            is_after_value: false,
        }
    }

    /// Returns the text with all tokens.
    pub fn into_inner(self) -> Vec<u8> {
        self.out
    }

    /// Appends the start of an object.
    pub fn begin_object(&mut self) -> Result<(), AllocError> {
        self.put_value("{", false)
    }

    /// Appends the end of an object.
    pub fn end_object(&mut self) -> Result<(), AllocError> {
        self.out.push(b'}');
        self.is_after_value = true;
        Ok(())
    }

    /// Appends the key of a member.
    pub fn key(&mut self, name: &str) -> Result<(), AllocError> {
        self.put_value("", false)?;
        self.put_quoted(name);
        self.out.push(b':');
        Ok(())
    }

    /// Appends a string.
    pub fn string(&mut self, text: &str) -> Result<(), AllocError> {
        self.put_value("", true)?;
        self.put_quoted(text);
        Ok(())
    }

    /// Appends a number.
    pub fn u64(&mut self, number: u64) -> Result<(), AllocError> {
        self.put_value(&number.to_string(), true)
    }

    /// Appends a truth value.
    pub fn boolean(&mut self, is_so: bool) -> Result<(), AllocError> {
        self.put_value(if is_so { "true" } else { "false" }, true)
    }

    /// Appends `null`.
    pub fn null(&mut self) -> Result<(), AllocError> {
        self.put_value("null", true)
    }

    /// Appends the text of a token that begins a value or a member, and perhaps ends it.
    fn put_value(&mut self, text: &str, is_whole: bool) -> Result<(), AllocError> {
        if self.is_after_value {
            self.out.push(b',');
        }
        self.out.extend_from_slice(text.as_bytes());
        self.is_after_value = is_whole;
        Ok(())
    }

    fn put_quoted(&mut self, text: &str) {
        self.out.push(b'"');
        for byte in text.bytes() {
            match byte {
                b'"' | b'\\' => self.out.extend_from_slice(&[b'\\', byte]),
                8 => self.out.extend_from_slice(b"\\b"),
                12 => self.out.extend_from_slice(b"\\f"),
                b'\n' => self.out.extend_from_slice(b"\\n"),
                b'\r' => self.out.extend_from_slice(b"\\r"),
                b'\t' => self.out.extend_from_slice(b"\\t"),
                0..=31 => self.out.extend(format!("\\u{byte:04x}").bytes()),
                _ => self.out.push(byte),
            }
        }
        self.out.push(b'"');
    }
}

#[cfg(test)]
mod tests {
    use super::*;

    /// Commas and colons, in nested objects and after a text.
    #[test]
    fn tokens() {
        let mut writer = Writer::new(b"x\n".to_vec());
        let put = |writer: &mut Writer| {
            writer.begin_object()?;
            writer.key("a")?;
            writer.begin_object()?;
            writer.end_object()?;
            writer.key("b")?;
            writer.u64(u64::MAX)?;
            writer.key("c")?;
            writer.begin_object()?;
            writer.key("d")?;
            writer.boolean(true)?;
            writer.key("e")?;
            writer.null()?;
            writer.key("f")?;
            writer.string("g")?;
            writer.end_object()?;
            writer.end_object()
        };
        let _: Result<(), AllocError> = put(&mut writer);
        let wanted = r#"{"a":{},"b":18446744073709551615,"c":{"d":true,"e":null,"f":"g"}}"#;
        assert_eq!(writer.into_inner(), format!("x\n{wanted}").into_bytes());
    }

    /// Each byte of ASCII, and characters of each width, by what RFC 8259 lets a string have.
    #[test]
    fn escapes() {
        for c in ('\0'..='\u{7f}').chain(['é', '€', '😀', '\u{2028}']) {
            let wanted = match c {
                '"' => "\\\"".to_string(),
                '\\' => "\\\\".to_string(),
                '\u{8}' => "\\b".to_string(),
                '\u{c}' => "\\f".to_string(),
                '\n' => "\\n".to_string(),
                '\r' => "\\r".to_string(),
                '\t' => "\\t".to_string(),
                '\0'..='\u{1f}' => format!("\\u00{}{:x}", c as u32 / 16, c as u32 % 16),
                c => c.to_string(),
            };
            let mut writer = Writer::new(Vec::new());
            let _: Result<(), AllocError> = writer.string(&c.to_string());
            assert_eq!(writer.into_inner(), format!("\"{wanted}\"").into_bytes());
        }
    }
}
