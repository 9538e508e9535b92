//! Rows packed into 64-bit words: the first variable in the highest byte used, the last in the lowest. Words then
//! compare as rows do, and one subtraction tests division.

/// The highest bit of each byte.
const HIGHEST: u64 = 0x8080_8080_8080_8080;

/// The words of a table of rows of n bytes, n from 1 to 6.
pub fn pack_all(n: usize, table: &[u8]) -> Vec<u64> {
    match n {
        1 => pack_rows::<1>(table),
        2 => pack_rows::<2>(table),
        3 => pack_rows::<3>(table),
        4 => pack_rows::<4>(table),
        5 => pack_rows::<5>(table),
        _ => pack_rows::<6>(table),
    }
}

/// The same for an n that is known when this is compiled, so that no loop over n is left.
fn pack_rows<const N: usize>(table: &[u8]) -> Vec<u64> {
    table.chunks_exact(N).map(pack::<N>).collect()
}

/// The word of a row.
fn pack<const N: usize>(row: &[u8]) -> u64 {
    row.iter().take(N).fold(0, |word, &exponent| word << 8 | u64::from(exponent))
}

/// Each row of n bytes is below the next.
pub fn ascends(n: usize, table: &[u8]) -> bool {
    match n {
        1 => rows_ascend::<1>(table),
        2 => rows_ascend::<2>(table),
        3 => rows_ascend::<3>(table),
        4 => rows_ascend::<4>(table),
        5 => rows_ascend::<5>(table),
        _ => rows_ascend::<6>(table),
    }
}

fn rows_ascend<const N: usize>(table: &[u8]) -> bool {
    let rows = table.chunks_exact(N).map(pack::<N>);
    rows.clone().zip(rows.skip(1)).all(|(row, next)| row < next)
}

/// No two rows of n bytes are equal. Rows that ascend tell it in one pass; others are sorted, and neighbours compared.
pub fn is_distinct(n: usize, table: &[u8]) -> bool {
    if ascends(n, table) {
        return true;
    }
    let mut words = pack_all(n, table);
    words.sort_unstable();
    words.windows(2).all(|pair| pair[0] != pair[1])
}

/// No entry is above 50. The largest is taken without an early end, so that many are looked at side by side.
pub fn entries_are_small(bytes: &[u8]) -> bool {
    bytes.iter().fold(0, |largest, &entry| largest.max(entry)) <= 50
}

/// The first row of n bytes that divides a query, in words that are made on the way. Entries are at most 50, so what an
/// exponent of the query has above 127 changes nothing.
pub fn first_divisor(n: usize, table: &[u8], query: &[u8]) -> Option<usize> {
    match n {
        1 => first_row::<1>(table, query),
        2 => first_row::<2>(table, query),
        3 => first_row::<3>(table, query),
        4 => first_row::<4>(table, query),
        5 => first_row::<5>(table, query),
        _ => first_row::<6>(table, query),
    }
}

fn first_row<const N: usize>(table: &[u8], query: &[u8]) -> Option<usize> {
    let q = query.iter().fold(0, |word, &exponent| word << 8 | u64::from(exponent.min(127)));
    table.chunks_exact(N).position(|row| divides(pack::<N>(row), q))
}

/// Writes words as rows of n bytes to the buffer's front.
pub fn unpack_all(n: usize, words: &[u64], buffer: &mut [u8]) {
    match n {
        1 => unpack_rows::<1>(words, buffer),
        2 => unpack_rows::<2>(words, buffer),
        3 => unpack_rows::<3>(words, buffer),
        4 => unpack_rows::<4>(words, buffer),
        5 => unpack_rows::<5>(words, buffer),
        _ => unpack_rows::<6>(words, buffer),
    }
}

fn unpack_rows<const N: usize>(words: &[u64], buffer: &mut [u8]) {
    for (row, &word) in buffer.chunks_exact_mut(N).zip(words) {
        let bytes = word.to_be_bytes();
        row.copy_from_slice(&bytes[8 - N..]);
    }
}

/// No byte of `u` exceeds that of `q`; bytes are below 128. A byte that does would borrow from the bit set above it.
pub fn divides(u: u64, q: u64) -> bool {
    ((q | HIGHEST) - u) & HIGHEST == HIGHEST
}

/// Some word divides `q`. Eight at a time, so that they are tested side by side.
pub fn any_divides(words: &[u64], q: u64) -> bool {
    let raised = q | HIGHEST;
    let mut eights = words.chunks_exact(8);
    let eight_divide = |eight: &[u64]| eight.iter().fold(false, |found, u| found | ((raised - u) & HIGHEST == HIGHEST));
    eights.by_ref().any(eight_divide) || eights.remainder().iter().any(|&u| divides(u, q))
}

/// The byte of a word that stands `place` bytes above the lowest.
pub fn byte(word: u64, place: usize) -> usize {
    (word >> (8 * place) & 255) as usize
}
