//! The bytes of a table, for the benchmarks.

/// So many roots, and the items, each with its kind and its argument.
pub fn table(roots: u16, items: &[(u8, u16)]) -> Vec<u8> {
    let mut bytes = Vec::new();
    bytes.extend((items.len() as u16).to_le_bytes());
    bytes.extend(roots.to_le_bytes());
    bytes.extend(items.iter().map(|item| item.0));
    bytes.extend(items.iter().flat_map(|item| item.1.to_le_bytes()));
    bytes
}
