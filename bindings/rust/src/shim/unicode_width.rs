//! How many columns a character takes, by Unicode Standard Annex 11 and the rules of the kit's
//! crate `unicode_width`.
use super::widths::WIDTHS;

/// The width of a character.
pub trait UnicodeWidthChar {
    /// Returns how many columns the character takes, or `None` for a control character.
    fn width(self) -> Option<usize>;
}

impl UnicodeWidthChar for char {
    fn width(self) -> Option<usize> {
        match self {
            '\0'..='\u{1f}' | '\u{7f}'..='\u{9f}' => None,
            ' '..='~' => Some(1),
            _ => {
                let after = WIDTHS.partition_point(|&run| run >> 2 <= u32::from(self));
                Some(WIDTHS[after - 1] as usize & 3)
            }
        }
    }
}

#[cfg(test)]
mod tests {
    use super::*;

    #[test]
    fn each_character_is_as_the_runs_say() {
        let mut widths = vec![1; 0xa0];
        for (at, run) in WIDTHS.iter().enumerate() {
            assert_eq!((run >> 2) as usize, widths.len());
            let end = WIDTHS.get(at + 1).map_or(0x11_0000, |next| next >> 2);
            widths.resize(end as usize, *run as usize & 3);
        }
        for c in '\0'..=char::MAX {
            let wanted = Some(widths[c as usize]).filter(|_| !c.is_control());
            assert_eq!(c.width(), wanted, "{c:?}");
        }
    }
}
