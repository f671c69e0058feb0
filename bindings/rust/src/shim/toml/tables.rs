//! The rules by which keys and headers define tables.
use super::{Table, Value};
use std::collections::btree_map::Entry;
use std::collections::BTreeMap;

/// The parts of a key with points between.
pub type Path = Vec<String>;

/// The values of a table that is being read, by their keys.
pub type Nodes = BTreeMap<String, Node>;

/// What made a table.
#[derive(Clone, Copy, PartialEq)]
pub enum Origin {
    /// A longer header.
    LongerHeader,
    /// A key with points.
    Points,
    /// Its own header.
    Header,
}

/// A value of a table that is being read.
pub enum Node {
    /// A value that nothing changes.
    Value(Value),
    /// A table.
    Table(Origin, Nodes),
    /// An array of tables, of which the last one is being read.
    Array(Vec<Value>, Nodes),
}

/// What stands behind a key, or which header it is in.
pub enum Definition {
    /// A value.
    Pair(Value),
    /// `[key]`.
    Table,
    /// `[[key]]`.
    Item,
}

/// Adds what a header or a pair defines, at a key below the last header, whose path is `outer`.
/// Returns `false` if it may not be there.
pub fn define(nodes: &mut Nodes, outer: &[String], path: &[String], what: Definition) -> bool {
    let is_header = !matches!(what, Definition::Pair(_));
    let Some((last, parts)) = path.split_last() else {
        return false;
    };
    let (by_header, by_points) = if is_header {
        (parts, &[][..])
    } else {
        (outer, parts)
    };
    let mut nodes = nodes;
    for part in by_header {
        let new = || Node::Table(Origin::LongerHeader, Nodes::new());
        nodes = match nodes.entry(part.clone()).or_insert_with(new) {
            Node::Table(_, inner) | Node::Array(_, inner) => inner,
            Node::Value(_) => return false,
        };
    }
    for part in by_points {
        let new = || Node::Table(Origin::Points, Nodes::new());
        nodes = match nodes.entry(part.clone()).or_insert_with(new) {
            Node::Table(origin, inner) if *origin != Origin::Header => {
                *origin = Origin::Points;
                inner
            }
            _ => return false,
        };
    }
    match (nodes.entry(last.clone()), what) {
        (Entry::Vacant(entry), what) => {
            entry.insert(match what {
                Definition::Pair(value) => Node::Value(value),
                Definition::Table => Node::Table(Origin::Header, Nodes::new()),
                Definition::Item => Node::Array(Vec::new(), Nodes::new()),
            });
            true
        }
        (Entry::Occupied(entry), Definition::Table) => match entry.into_mut() {
            Node::Table(origin @ Origin::LongerHeader, _) => {
                *origin = Origin::Header;
                true
            }
            _ => false,
        },
        (Entry::Occupied(entry), Definition::Item) => match entry.into_mut() {
            Node::Array(items, last) => {
                items.push(Value::Table(close(std::mem::take(last))));
                true
            }
            _ => false,
        },
        (Entry::Occupied(_), Definition::Pair(_)) => false,
    }
}

/// Returns the table that was read.
pub fn close(nodes: Nodes) -> Table {
    let mut table = Table::new();
    // (`collect` would sort what is in order)
    for (key, node) in nodes {
        table.insert(key, value_of(node));
    }
    table
}

/// Returns the value that was read.
fn value_of(node: Node) -> Value {
    match node {
        Node::Value(value) => value,
        Node::Table(_, nodes) => Value::Table(close(nodes)),
        Node::Array(mut items, last) => {
            items.push(Value::Table(close(last)));
            Value::Array(items)
        }
    }
}
