//! Lays a text out as records a second time, each with the piece of the text
//! that it comes from. The places that messages tell come from here, and only
//! where the records are those of the archive's sheet, byte for byte.

mod walk;

use second::records::{bytes, Record};
use second::text::naming::{self, Names};
use second::text::parser::parse;
use second::text::reading::tokens;
use second::text::syntax::{Name, Syntax};

use crate::places::{places, Places};
use crate::source::Piece;
use walk::Walk;

pub use walk::Node;

/// A text with its records and where each comes from.
pub struct Layout {
    pub syntax: Syntax,
    pub names: Names,
    pub places: Places,
    pub records: Vec<Record>,
    pub nodes: Vec<Node>,
}

/// The layout of a text; none where the text is outside the grammar or has bad
/// names.
pub fn layout(text: &[u8]) -> Option<Layout> {
    let tokens = tokens(text).ok()?;
    let syntax = parse(text, &tokens);
    let names = naming::resolve(&syntax).ok()?;
    let (records, nodes) = Walk::new(&syntax, &names).all();
    let places = places(&tokens);
    Some(Layout { syntax, names, places, records, nodes })
}

impl Layout {
    /// Whether the records are the bytes of a sheet.
    pub fn is(&self, sheet: &[u8]) -> bool {
        bytes(&self.records) == sheet
    }

    /// The piece of the text that a record comes from.
    pub fn piece(&self, record: usize) -> Option<Piece> {
        let named = |name: &Name| Piece::new(name.place, name.place + name.letters.len());
        Some(match *self.nodes.get(record)? {
            Node::Header => Piece::new(self.places.input, self.places.input + "INPUT".len()),
            Node::Type(number) => named(&self.syntax.declarations[number].name),
            Node::Expression(number) => self.places.expressions[number].head,
            Node::Constant(number) => self.places.constants[number].head,
            Node::Alternative(number) => self.places.alternatives[number].head,
        })
    }
}
