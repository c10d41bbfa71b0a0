//! Rows of a type table by name. A row is `[kind, a, b, c]`; see `include/ratlinery.h`.

/// A row's, a member's or an entry's number in the type table.
pub type Index = u32;

/// A bool.
pub const BOOL: [u32; 4] = [1, 0, 0, 0];

/// A number, a float, or a flexible enum or bits, of 1, 2, 4 or 8 bytes.
pub const fn number(bytes: u32) -> [u32; 4] {
    [2, bytes, 0, 0]
}

/// A handle.
pub const fn handle(optional: bool) -> [u32; 4] {
    [3, optional as u32, 0, 0]
}

/// An array of 1 to 65,528 elements. The element's row has a smaller number than the array's.
pub const fn array(element: Index, count: u32) -> [u32; 4] {
    [4, element, count, 0]
}

/// A vector.
pub const fn vector(element: Index, largest_count: u32, optional: bool) -> [u32; 4] {
    [5, element, largest_count, optional as u32]
}

/// A string.
pub const fn string(largest_byte_count: u32, optional: bool) -> [u32; 4] {
    [6, 0, largest_byte_count, optional as u32]
}

/// A struct: its members have the ordinals 1, 2, 3 and on, and rows with smaller numbers than the struct's.
pub const fn structure(first_member: Index, members: u32) -> [u32; 4] {
    [7, first_member, members, 0]
}

/// A box of a struct, which may always be absent.
pub const fn boxed(structure: Index) -> [u32; 4] {
    [8, structure, 0, 0]
}

/// A table: its members' ordinals rise.
pub const fn table(first_member: Index, members: u32) -> [u32; 4] {
    [9, first_member, members, 0]
}

/// A union of one member or more, whose ordinals rise.
pub const fn union(first_member: Index, members: u32, optional: bool, flexible: bool) -> [u32; 4] {
    [10, first_member, members, optional as u32 + 2 * flexible as u32]
}

/// A strict enum of 1, 2, 4 or 8 bytes: its values are one entry or more, which rise.
pub const fn strict_enum(bytes: u32, first_entry: Index, entries: u32) -> [u32; 4] {
    [11, bytes, first_entry, entries]
}

/// Strict bits of 1, 2, 4 or 8 bytes: no bit is set outside the entry that is their mask.
pub const fn strict_bits(bytes: u32, mask: Index) -> [u32; 4] {
    [12, bytes, mask, 1]
}
