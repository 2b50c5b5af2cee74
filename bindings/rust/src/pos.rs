//! Places in a text, and nodes that keep their place.
use std::borrow::{Borrow, BorrowMut};
use std::cmp::Ordering;
use std::fmt;
use std::hash::{Hash, Hasher};

/// A place in a text: the line, and the column in that line, both counted from 1.
///
/// Columns count characters (`char`s), not bytes. A line ends at a line feed; a carriage return starts the column again,
/// and counts no line of its own (this project's choice). 0:0, the default, is no place of a text: it is used where a tree
/// has a node that the text left out.
///
/// Places are ordered by line, then by column.
#[derive(Clone, Copy, Default, PartialEq, Eq, PartialOrd, Ord, Hash)]
pub struct Pos {
    /// The line, counted from 1.
    pub line: usize,
    /// The column in its line, in characters, counted from 1.
    pub column: usize,
}

/// The line, a colon and the column: `3:14`.
impl fmt::Display for Pos {
    fn fmt(&self, f: &mut fmt::Formatter<'_>) -> fmt::Result {
        write!(f, "{}:{}", self.line, self.column)
    }
}

/// The place in brackets: `Pos(3:14)`.
impl fmt::Debug for Pos {
    fn fmt(&self, f: &mut fmt::Formatter<'_>) -> fmt::Result {
        write!(f, "Pos({self})")
    }
}

/// The pair of a line and a column.
impl From<(usize, usize)> for Pos {
    fn from((line, column): (usize, usize)) -> Pos {
        Pos { line, column }
    }
}

/// A node of a tree, with its place in the text.
///
/// Comparisons, hashes and the shown text are those of the node alone; its place never matters to them. The default is
/// the node's default at 0:0.
#[derive(Clone, Copy, Debug, Default)]
pub struct Positioned<T: ?Sized> {
    /// The place of the node.
    pub pos: Pos,
    /// The node itself.
    pub node: T,
}

impl<T> Positioned<T> {
    /// This node at this place.
    #[must_use]
    pub const fn new(node: T, pos: Pos) -> Positioned<T> {
        Positioned { pos, node }
    }

    /// The node, without its place.
    #[inline]
    pub fn into_inner(self) -> T {
        self.node
    }

    /// Another node, at the place of this one.
    #[must_use]
    pub fn position_node<U>(&self, other: U) -> Positioned<U> {
        Positioned::new(other, self.pos)
    }

    /// What `f` makes of the node, at the same place.
    #[must_use]
    pub fn map<U>(self, f: impl FnOnce(T) -> U) -> Positioned<U> {
        Positioned::new(f(self.node), self.pos)
    }
}

impl<T: fmt::Display> fmt::Display for Positioned<T> {
    fn fmt(&self, f: &mut fmt::Formatter<'_>) -> fmt::Result {
        self.node.fmt(f)
    }
}

impl<T: PartialEq> PartialEq for Positioned<T> {
    fn eq(&self, other: &Positioned<T>) -> bool {
        self.node == other.node
    }
}

impl<T: Eq> Eq for Positioned<T> {}

impl<T: PartialOrd> PartialOrd for Positioned<T> {
    fn partial_cmp(&self, other: &Positioned<T>) -> Option<Ordering> {
        self.node.partial_cmp(&other.node)
    }
}

impl<T: Ord> Ord for Positioned<T> {
    fn cmp(&self, other: &Positioned<T>) -> Ordering {
        self.node.cmp(&other.node)
    }
}

impl<T: Hash> Hash for Positioned<T> {
    fn hash<H: Hasher>(&self, state: &mut H) {
        self.node.hash(state);
    }
}

impl Borrow<str> for Positioned<String> {
    fn borrow(&self) -> &str {
        &self.node
    }
}

impl BorrowMut<str> for Positioned<String> {
    fn borrow_mut(&mut self) -> &mut str {
        &mut self.node
    }
}
