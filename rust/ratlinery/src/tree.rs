//! A value list as a tree to walk.
//!
//! The nodes stand in one list, each before its children, and are made and dropped without recursion: a message may be
//! nested thousands of structs deep.

use crate::TypeTable;
use std::fmt;

/// A value list as a tree. [`TypeTable::tree`] makes it, of lists that the library accepts.
///
/// ```
/// use ratlinery::{TypeTable, Value, row};
///
/// // a struct of a vector of strings and a number
/// let rows = [row::string(100, false), row::vector(0, 100, false), row::number(4), row::structure(0, 2)];
/// let table = TypeTable::new(&rows, &[[1, 1], [2, 2]]);
/// let values = [3, 3, 0x68, 0x69, 1, 42]; // two strings: "hi" and an empty one; then 42
///
/// let tree = table.tree(3, &values)?;
/// let Value::Struct(parts) = tree.root() else { unreachable!() };
/// let Some(Value::Vector(Some(strings))) = parts.get(0) else { unreachable!() };
/// let texts: Vec<&str> = strings.iter().filter_map(|string| string.as_str()).collect();
/// assert_eq!(texts, ["hi", ""]);
///
/// assert_eq!(
///     tree.to_string(),
///     "struct\n  vector\n    string \"hi\"\n    string \"\"\n  number 42\n"
/// );
/// # Ok::<(), ratlinery::Refusal>(())
/// ```
#[derive(Clone, Debug)]
pub struct Tree<'v> {
    values: &'v [u64],
    nodes: Vec<Node>,
    /// All strings, one after another.
    text: String,
}

#[derive(Clone, Copy, Debug)]
struct Node {
    what: What,
    /// The children stand between the node and this index.
    end: usize,
}

#[derive(Clone, Copy, Debug)]
enum What {
    Bool(bool),
    Number(u64),
    Handle(bool),
    Array,
    Vector(bool),
    /// A part of the text, if it is present.
    String(Option<(usize, usize)>),
    Struct,
    /// Its child is the struct.
    Box(bool),
    /// Its children are members.
    Table,
    /// Its child is a member.
    Union(bool),
    /// Its child is a value or unknown content.
    Member(u64),
    /// Its words are a part of the values.
    Unknown {
        in_line: bool,
        handles: u64,
        from: usize,
        to: usize,
    },
}

/// A value.
#[derive(Clone, Copy, Debug)]
pub enum Value<'t> {
    Bool(bool),
    /// The bits of a number, enum, bits or float.
    Number(u64),
    /// Whether it is present.
    Handle(bool),
    Array(Parts<'t>),
    Vector(Option<Parts<'t>>),
    String(Option<&'t str>),
    Struct(Parts<'t>),
    /// The members of the boxed struct.
    Box(Option<Parts<'t>>),
    Table(Members<'t>),
    Union(Option<Member<'t>>),
}

/// The parts of an array, vector or struct, in order.
#[derive(Clone, Copy, Debug)]
pub struct Parts<'t>(Range<'t>);

/// The members of a table that are present, in the order of their ordinals.
#[derive(Clone, Copy, Debug)]
pub struct Members<'t>(Range<'t>);

/// A member of a table or union.
#[derive(Clone, Copy, Debug)]
pub struct Member<'t> {
    source: Source<'t>,
    at: usize,
}

/// What a member holds.
#[derive(Clone, Copy, Debug)]
pub enum Content<'t> {
    Known(Value<'t>),
    Unknown(Unknown<'t>),
}

/// The content of an ordinal that the type does not list: its handle number, and its bytes as they stand.
#[derive(Clone, Copy, Debug, PartialEq, Eq)]
pub struct Unknown<'t> {
    pub handles: u64,
    pub raw: Raw<'t>,
}

/// The bytes of unknown content, as little-endian words.
#[derive(Clone, Copy, Debug, PartialEq, Eq)]
pub enum Raw<'t> {
    /// Four bytes.
    InLine(u32),
    /// Eight bytes a word.
    OutOfLine(&'t [u64]),
}

/// Where nodes are read from.
#[derive(Clone, Copy)]
struct Source<'t> {
    values: &'t [u64],
    nodes: &'t [Node],
    text: &'t str,
}

/// The children of a node.
#[derive(Clone, Copy, Debug)]
struct Range<'t> {
    source: Source<'t>,
    from: usize,
    to: usize,
}

impl Tree<'_> {
    /// The value of the root.
    pub fn root(&self) -> Value<'_> {
        self.source().value(0)
    }

    fn source(&self) -> Source<'_> {
        Source { values: self.values, nodes: &self.nodes, text: &self.text }
    }
}

impl<'v> Tree<'v> {
    /// The tree of a value list that the library accepts.
    pub(crate) fn new(table: TypeTable, root: u32, values: &'v [u64]) -> Self {
        let (rows, members, _) = table.lists();
        let mut builder = Builder {
            rows: rows.as_chunks().0,
            members: members.as_chunks().0,
            values,
            index: 0,
            nodes: Vec::new(),
            text: Vec::new(),
            tasks: vec![Task::Value(root)],
        };
        while let Some(task) = builder.tasks.pop() {
            builder.step(task);
        }
        let text = String::from_utf8(builder.text).expect("the library accepts UTF-8 only");
        Tree { values, nodes: builder.nodes, text }
    }
}

/// What is left to do, the next thing last.
enum Task {
    Value(u32),
    Each { row: u32, left: u64 },
    Fields { member: u32, left: u32 },
    Envelopes { row: u32, ordinal: u64, highest: u64 },
    Member { row: u32, ordinal: u64 },
    Content { row: u32, ordinal: u64 },
    Close(usize),
}

struct Builder<'b> {
    rows: &'b [[u32; 4]],
    members: &'b [[u32; 2]],
    values: &'b [u64],
    index: usize,
    nodes: Vec<Node>,
    text: Vec<u8>,
    tasks: Vec<Task>,
}

impl Builder<'_> {
    fn take(&mut self) -> u64 {
        self.index += 1;
        self.values[self.index - 1]
    }

    /// A node without children.
    fn leaf(&mut self, what: What) {
        let end = self.nodes.len() + 1;
        self.nodes.push(Node { what, end });
    }

    /// A node whose children a task makes.
    fn open(&mut self, what: What, children: Task) {
        self.tasks.push(Task::Close(self.nodes.len()));
        self.tasks.push(children);
        self.leaf(what);
    }

    fn step(&mut self, task: Task) {
        match task {
            Task::Close(node) => self.nodes[node].end = self.nodes.len(),
            Task::Value(row) => self.value(row),
            Task::Each { left: 0, .. } | Task::Fields { left: 0, .. } => {}
            Task::Each { row, left } => {
                self.tasks.push(Task::Each { row, left: left - 1 });
                self.value(row);
            }
            Task::Fields { member, left } => {
                self.tasks.push(Task::Fields { member: member + 1, left: left - 1 });
                self.value(self.members[member as usize][1]);
            }
            Task::Envelopes { row, ordinal, highest } => {
                if ordinal <= highest {
                    self.tasks.push(Task::Envelopes { row, ordinal: ordinal + 1, highest });
                    if self.take() == 1 {
                        self.tasks.push(Task::Member { row, ordinal });
                    }
                }
            }
            Task::Member { row, ordinal } => {
                self.open(What::Member(ordinal), Task::Content { row, ordinal });
            }
            Task::Content { row, ordinal } => match self.known(row, ordinal) {
                Some(payload) => self.value(payload),
                None => self.unknown(),
            },
        }
    }

    fn value(&mut self, row: u32) {
        let [kind, a, b, _] = self.rows[row as usize];
        match kind {
            4 => return self.open(What::Array, Task::Each { row: a, left: b.into() }),
            7 => return self.open(What::Struct, Task::Fields { member: a, left: b }),
            _ => {}
        }
        let number = self.take();
        match (kind, number) {
            (1, _) => self.leaf(What::Bool(number == 1)),
            (2 | 11 | 12, _) => self.leaf(What::Number(number)),
            (3, _) => self.leaf(What::Handle(number == 1)),
            (5, 0) => self.leaf(What::Vector(false)),
            (5, _) => self.open(What::Vector(true), Task::Each { row: a, left: number - 1 }),
            (6, 0) => self.leaf(What::String(None)),
            (6, _) => self.string(number as usize - 1),
            (8, 0) => self.leaf(What::Box(false)),
            (8, _) => self.open(What::Box(true), Task::Value(a)),
            (9, _) => self.open(What::Table, Task::Envelopes { row, ordinal: 1, highest: number }),
            (_, 0) => self.leaf(What::Union(false)),
            (_, ordinal) => self.open(What::Union(true), Task::Member { row, ordinal }),
        }
    }

    fn string(&mut self, length: usize) {
        let from = self.text.len();
        let bytes = &self.values[self.index..self.index + length];
        self.text.extend(bytes.iter().map(|&byte| byte as u8));
        self.index += length;
        self.leaf(What::String(Some((from, self.text.len()))));
    }

    /// The row of a table's or union's member, if it is listed.
    fn known(&self, row: u32, ordinal: u64) -> Option<u32> {
        let [_, first, count, _] = self.rows[row as usize];
        let members = &self.members[first as usize..][..count as usize];
        let at = members.binary_search_by_key(&ordinal, |member| member[0].into()).ok()?;
        Some(members[at][1])
    }

    fn unknown(&mut self) {
        let bytes = self.take();
        let handles = self.take();
        let in_line = bytes == 0;
        let from = self.index;
        self.index += if in_line { 1 } else { bytes as usize / 8 };
        self.leaf(What::Unknown { in_line, handles, from, to: self.index });
    }
}

impl<'t> Source<'t> {
    fn children(self, at: usize) -> Range<'t> {
        Range { source: self, from: at + 1, to: self.nodes[at].end }
    }

    fn value(self, at: usize) -> Value<'t> {
        let parts = || Parts(self.children(at));
        match self.nodes[at].what {
            What::Bool(value) => Value::Bool(value),
            What::Number(bits) => Value::Number(bits),
            What::Handle(present) => Value::Handle(present),
            What::Array => Value::Array(parts()),
            What::Vector(present) => Value::Vector(present.then(parts)),
            What::String(part) => Value::String(part.map(|(from, to)| &self.text[from..to])),
            What::Struct => Value::Struct(parts()),
            What::Box(present) => Value::Box(present.then(|| Parts(self.children(at + 1)))),
            What::Table => Value::Table(Members(self.children(at))),
            What::Union(present) => Value::Union(present.then_some(Member { source: self, at: at + 1 })),
            What::Member(_) | What::Unknown { .. } => unreachable!("no value stands here"),
        }
    }
}

impl<'t> Range<'t> {
    /// The children's places.
    fn places(self) -> impl Iterator<Item = usize> {
        let first = (self.from < self.to).then_some(self.from);
        std::iter::successors(first, move |&at| {
            Some(self.source.nodes[at].end).filter(|&next| next < self.to)
        })
    }
}

impl<'t> Parts<'t> {
    /// The parts in order.
    pub fn iter(self) -> impl Iterator<Item = Value<'t>> {
        self.0.places().map(move |at| self.0.source.value(at))
    }

    /// The part with a number, counted from 0.
    pub fn get(self, index: usize) -> Option<Value<'t>> {
        self.iter().nth(index)
    }

    /// How many there are.
    pub fn len(self) -> usize {
        self.0.places().count()
    }

    pub fn is_empty(self) -> bool {
        self.0.from == self.0.to
    }
}

impl<'t> Members<'t> {
    /// The members that are present, in the order of their ordinals.
    pub fn iter(self) -> impl Iterator<Item = Member<'t>> {
        self.0.places().map(move |at| Member { source: self.0.source, at })
    }

    /// The content of an ordinal, if it is present.
    pub fn get(self, ordinal: u64) -> Option<Content<'t>> {
        self.iter().find(|member| member.ordinal() == ordinal).map(Member::content)
    }
}

impl<'t> Member<'t> {
    pub fn ordinal(self) -> u64 {
        match self.source.nodes[self.at].what {
            What::Member(ordinal) => ordinal,
            _ => unreachable!("no member stands here"),
        }
    }

    pub fn content(self) -> Content<'t> {
        let values = self.source.values;
        match self.source.nodes[self.at + 1].what {
            What::Unknown { in_line, handles, from, to } => {
                let raw = if in_line {
                    Raw::InLine(values[from] as u32)
                } else {
                    Raw::OutOfLine(&values[from..to])
                };
                Content::Unknown(Unknown { handles, raw })
            }
            _ => Content::Known(self.source.value(self.at + 1)),
        }
    }
}

impl<'t> Value<'t> {
    /// The bits of a number.
    pub fn as_number(self) -> Option<u64> {
        if let Value::Number(bits) = self { Some(bits) } else { None }
    }

    /// The truth of a bool.
    pub fn as_bool(self) -> Option<bool> {
        if let Value::Bool(value) = self { Some(value) } else { None }
    }

    /// The text of a string that is present.
    pub fn as_str(self) -> Option<&'t str> {
        if let Value::String(text) = self { text } else { None }
    }

    /// The parts of an array, a struct, a vector that is present, or a boxed struct that is present.
    pub fn parts(self) -> Option<Parts<'t>> {
        match self {
            Value::Array(parts) | Value::Struct(parts) => Some(parts),
            Value::Vector(parts) | Value::Box(parts) => parts,
            _ => None,
        }
    }
}

/// A line for each node, further in for each level.
impl fmt::Display for Tree<'_> {
    fn fmt(&self, f: &mut fmt::Formatter) -> fmt::Result {
        let mut ends: Vec<usize> = Vec::new();
        for (at, node) in self.nodes.iter().enumerate() {
            while ends.last().is_some_and(|&end| end <= at) {
                ends.pop();
            }
            write!(f, "{:1$}", "", 2 * ends.len())?;
            self.line(node.what, f)?;
            ends.push(node.end);
        }
        Ok(())
    }
}

impl Tree<'_> {
    fn line(&self, what: What, f: &mut fmt::Formatter) -> fmt::Result {
        let absent = |present: bool| if present { "" } else { " absent" };
        match what {
            What::Bool(value) => writeln!(f, "bool {value}"),
            What::Number(bits) => writeln!(f, "number {bits}"),
            What::Handle(present) => writeln!(f, "handle{}", absent(present)),
            What::Array => writeln!(f, "array"),
            What::Vector(present) => writeln!(f, "vector{}", absent(present)),
            What::String(None) => writeln!(f, "string absent"),
            What::String(Some((from, to))) => writeln!(f, "string {:?}", &self.text[from..to]),
            What::Struct => writeln!(f, "struct"),
            What::Box(present) => writeln!(f, "box{}", absent(present)),
            What::Table => writeln!(f, "table"),
            What::Union(present) => writeln!(f, "union{}", absent(present)),
            What::Member(ordinal) => writeln!(f, "ordinal {ordinal}"),
            What::Unknown { in_line, handles, from, to } => {
                let bytes = if in_line { 4 } else { 8 * (to - from) };
                writeln!(f, "unknown content, {bytes} bytes, {handles} handles")
            }
        }
    }
}

impl fmt::Debug for Source<'_> {
    fn fmt(&self, f: &mut fmt::Formatter) -> fmt::Result {
        write!(f, "{} nodes", self.nodes.len())
    }
}
