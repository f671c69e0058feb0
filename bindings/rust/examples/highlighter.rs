//! A highlighter: `highlighter [LITERAL]` writes a string literal of a format string with a colour
//! for each kind of token.
use dephungo::literal::Literal;
use dephungo::tokens::Kind;
use dephungo::ParseMode;

/// The number of the colour of a kind on a terminal.
fn colour(kind: Kind) -> u8 {
    match kind {
        Kind::Quote | Kind::Text => 32,
        Kind::OpenBrace | Kind::CloseBrace => 35,
        Kind::Identifier => 36,
        Kind::EscapeSequence => 34,
        Kind::Unexpected => 31,
        _ => 33,
    }
}

fn main() {
    let source = std::env::args().nth(1);
    let source = source.unwrap_or_else(|| r#""{} of {\x74otal:>8}\n""#.to_string());
    let Some(literal) = Literal::new(&source, ParseMode::Format) else {
        return eprintln!("no string literal: {source}");
    };
    for token in literal.tokens() {
        let (number, text) = (colour(token.kind), &source[token.span]);
        print!("\x1b[{number}m{text}\x1b[0m");
    }
    println!();
}
