//! Code for the crate of the compiler, over this one: `drop_in [TEXT]` lists the arguments to which
//! a format string refers, and its errors.
use dephungo as rustc_parse_format;
use rustc_parse_format::{ParseMode, Parser, Piece, Position};

fn main() {
    let text = std::env::args().nth(1);
    let text = text.unwrap_or_else(|| "{0} of {total:>width$} {".to_string());
    let mut parser = Parser::new(&text, None, None, false, ParseMode::Format);
    for piece in parser.by_ref() {
        match piece {
            Piece::Lit(text) => println!("text {text:?}"),
            Piece::NextArgument(argument) => match argument.position {
                Position::ArgumentNamed(name) => println!("the argument `{name}`"),
                Position::ArgumentIs(number) | Position::ArgumentImplicitlyIs(number) => {
                    println!("the argument {number}")
                }
            },
        }
    }
    for error in &parser.errors {
        println!("error at {:?}: {}", error.span, error.description);
    }
}
