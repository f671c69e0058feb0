//! Lines of a source as rustc draws them: the characters and the columns that these take, colours,
//! places, the gutter with the numbers of the lines, and the windows to which lines are cut.

// Extracted from crates/drawn_lines/src/lib.rt by tools/extract: not to be edited.
// That source has the contracts, and is proved. That this text means the same is only tested.

pub(crate) mod extent;
pub(crate) mod frame;
pub(crate) mod glyphs;
pub(crate) mod lines;
pub(crate) mod paint;
pub(crate) mod places;
pub(crate) mod printable;
pub(crate) mod window;

pub use extent::{Extent, Spot};
pub use frame::{digits, line_indent, Frame};
pub use glyphs::{
    draws_nothing, glyph, glyph_count, put_glyphs, put_glyphs_after, put_painted_glyphs,
    put_painted_run, put_run, split_first, width,
};
pub use lines::{
    put_code, put_decimal, put_gap, put_gutter, put_line_number, put_number_bar, put_parting,
    put_source, put_source_line,
};
pub use paint::{
    has_colours, palette_of, put_change, put_closing, put_note_sign, put_opening, put_painted_text,
    put_reset, put_sign, rank, Gutter, Palette, Style,
};
pub use places::{after_lines, extent_of, line, offsets, split_line, Picture, ORIGIN, WIDTH};
#[cfg(feature = "programs")]
pub use printable::{is_drawn_as_is, is_non_ascii_drawn_as_is};
pub use window::{columns, shift, Window};
