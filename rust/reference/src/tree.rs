//! A message as a tree: what stands in line in one node, what it refers to below it.

/// A value that stands in the message.
#[derive(Debug)]
pub(crate) enum Node<'m> {
    /// Values of a plain row, one after another: their bytes, judged.
    Plain { row: usize, bytes: &'m [u8] },
    /// A struct's members or an array's elements, where one of them can refer out of line.
    Parts(Vec<Node<'m>>),
    /// A vector, string, box or union that is not there.
    Absent,
    /// A vector with the place of its elements.
    Vector { row: usize, at: usize, length: usize, elements: Elements<'m> },
    /// A string with the place of its text.
    Text { row: usize, at: usize, text: &'m str },
    /// A box with the place and the row of its struct.
    Boxed { row: usize, at: usize, inner: Option<Box<Node<'m>>> },
    /// A table with the place of its envelopes.
    Table { row: usize, at: usize, envelopes: Vec<Option<Content<'m>>> },
    /// A union's ordinal and what its envelope holds.
    Union { ordinal: u64, content: Option<Box<Content<'m>>> },
}

/// A vector's elements.
#[derive(Debug)]
pub(crate) enum Elements<'m> {
    /// Of a plain row: their bytes, judged.
    Plain {
        row: usize,
        bytes: &'m [u8],
    },
    Each(Vec<Node<'m>>),
}

/// What an envelope holds.
#[derive(Debug)]
pub(crate) enum Content<'m> {
    /// A payload of a known row; its place if it is out of line.
    Known { row: usize, at: Option<usize>, value: Node<'m> },
    /// Unknown content: the table's or union's row, its place if it is out of line, its handle number, its bytes.
    Unknown { row: usize, at: Option<usize>, handles: u64, bytes: &'m [u8] },
}
