//! Opening the tables of a bundle and writing a bundle, each with all its checks.

use crate::packed::{entries_are_small, is_distinct};

/// One table's number of variables and its bytes; nothing for a bundle with a fault.
pub fn open(bundle: &[u8], table: usize) -> Option<(usize, &[u8])> {
    let (n, bodies) = tables(bundle)?;
    bodies.get(table).map(|body| (n, *body))
}

/// The number of variables and the bytes of each table; nothing for a bundle with a fault.
pub fn tables(bundle: &[u8]) -> Option<(usize, Vec<&[u8]>)> {
    let (&n, &tables) = (bundle.first()?, bundle.get(1)?);
    let (n, tables) = (usize::from(n), usize::from(tables));
    let header = 2 + 4 * tables;
    let sizes = bundle.len() <= 65_535 && bundle.len() >= header && (1..=16).contains(&tables) && (1..=6).contains(&n);
    if !sizes {
        return None;
    }
    let mut place = header;
    let mut bodies = Vec::with_capacity(tables);
    for entry in bundle[2..header].chunks_exact(4) {
        let rows = usize::from(u16::from_le_bytes([entry[0], entry[1]]));
        let offset = usize::from(u16::from_le_bytes([entry[2], entry[3]]));
        if rows > 4096 || offset != place || place + n * rows > bundle.len() {
            return None;
        }
        bodies.push(&bundle[place..place + n * rows]);
        place += n * rows;
    }
    let small = place == bundle.len() && entries_are_small(&bundle[header..]);
    (small && bodies.iter().all(|body| is_distinct(n, body))).then_some((n, bodies))
}

/// Writes the bundle of the tables to the buffer's front and gives its length; nothing where a part has a fault or the
/// bundle does not fit.
pub fn write(n: usize, counts: &[u16], tables: &[u8], buffer: &mut [u8]) -> Option<usize> {
    let header = 2 + 4 * counts.len();
    let length = header + tables.len();
    if !is_sound(n, counts, tables) || length > 65_535 || length > buffer.len() {
        return None;
    }
    buffer[0] = n as u8;
    buffer[1] = counts.len() as u8;
    let mut place = header;
    for (entry, &count) in buffer[2..header].chunks_exact_mut(4).zip(counts) {
        entry[..2].copy_from_slice(&count.to_le_bytes());
        entry[2..].copy_from_slice(&(place as u16).to_le_bytes());
        place += n * usize::from(count);
    }
    buffer[header..length].copy_from_slice(tables);
    Some(length)
}

/// n, the number of tables, their rows, bytes and entries are as they must be, and no table has equal rows.
fn is_sound(n: usize, counts: &[u16], tables: &[u8]) -> bool {
    let rows = || counts.iter().map(|&count| usize::from(count)).sum::<usize>();
    let sizes = (1..=6).contains(&n) && (1..=16).contains(&counts.len()) && tables.len() == n * rows();
    let small = sizes && counts.iter().all(|&count| count <= 4096) && entries_are_small(tables);
    small && are_distinct(n, counts, tables)
}

/// No two rows of one table are equal.
fn are_distinct(n: usize, counts: &[u16], tables: &[u8]) -> bool {
    let mut rest = tables;
    counts.iter().all(|&count| {
        let (table, behind) = rest.split_at(n * usize::from(count));
        rest = behind;
        is_distinct(n, table)
    })
}
