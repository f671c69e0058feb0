//! Fields that a caller may write as in the original, and that the static library takes no word of;
//! and an argument that no parser has read.
use dephungo::*;

#[test]
fn a_source_literal_may_be_set() {
    let mut parser = Parser::new("{a}\n{b}", None, None, false, ParseMode::Format);
    parser.is_source_literal = true;
    assert_eq!(parser.by_ref().count(), 3);
    assert_eq!((parser.arg_places.len(), parser.line_spans.len()), (2, 2));
}

#[test]
fn an_argument_is_the_first_by_default() {
    let wanted = Argument {
        position: ArgumentImplicitlyIs(0),
        position_span: 0..0,
        format: FormatSpec::default(),
    };
    assert_eq!(Argument::default(), wanted);
}
