//! Equal rows alone and together with each other fault, so that a program with 12 at another place of its order gives
//! another number. Nothing here is random. Refusals 5 and 8 for a short buffer are up to the calls that are made.
//!
//! - `tables`: with 1, 2, 3 and 4.
//! - `bundles`: equal rows in the first, a middle and the last table, with 9, 1, 3, 10, 11 and 4. `few_bundles`: some.
//! - `parts`: the same for the writer, with 1, 9, 2, 3, 4, and 8 for a bundle that is too long.
//! - `apart`: tables with equal rows in different tables only, which is no fault.

use crate::bundles::{pack, spread_counted};
use crate::parts::Parts;
use crate::tables::{counted, Table};
use second::bundle::{MOST_BYTES, MOST_TABLES};
use second::operations::{LARGEST_ENTRY, MOST_ROWS};

/// Tables of one bundle: their n and the bytes of each.
type Bodies = (usize, Vec<Vec<u8>>);

/// Rows of which some are equal, by the numbers of `row`: nothing else; side by side at the front, in the middle and
/// behind rows that ascend; the first and the last; others far apart; three; two and two; all.
const ORDERS: [&[usize]; 9] = [
    &[0, 0],
    &[0, 0, 1, 2],
    &[3, 1, 1, 2],
    &[0, 1, 3, 3],
    &[1, 0, 2, 3, 1],
    &[0, 2, 1, 2, 3],
    &[2, 0, 2, 1, 2],
    &[1, 0, 0, 1],
    &[2, 2, 2, 2, 2],
];

/// Numbers of variables; 7 are too many, and rows of 7 bytes can be equal as well.
const VARIABLES: [usize; 5] = [1, 2, 3, 6, 7];

/// Rows without equal ones.
const DISTINCT: &[usize] = &[2, 0, 1];

/// A power of one variable. Numbers from 0 to 3 give rows that ascend, for each n.
fn row(n: usize, number: usize) -> Vec<u8> {
    let place = (n - 1).saturating_sub(number);
    (0..n).map(|at| if at == place { number as u8 + 1 } else { 0 }).collect()
}

/// The rows with these numbers.
fn rows(n: usize, numbers: &[usize]) -> Vec<u8> {
    numbers.iter().flat_map(|&number| row(n, number)).collect()
}

/// The rows, and others behind them, so many in all.
fn lengthened(n: usize, body: &[u8], rows: usize) -> Vec<u8> {
    [body, &counted(n, rows - body.len() / n)].concat()
}

/// Tables with equal rows, alone and with each other fault of a table; and long ones, in order or not.
pub fn tables() -> Vec<Table> {
    let short = VARIABLES.iter().flat_map(|&n| ORDERS.map(|numbers| Table { n, bytes: rows(n, numbers) }));
    let mut all: Vec<Table> = short.flat_map(|table| [with_faults(&table), vec![table]].concat()).collect();
    for n in 3..=6 {
        let mut long = Table { n, bytes: counted(n, MOST_ROWS) };
        long.copy_row(MOST_ROWS - 1, MOST_ROWS - 2);
        all.push(long.clone());
        long.copy_row(0, MOST_ROWS - 1);
        all.push(long);
    }
    all
}

/// The table with 1, 2, 3 and 4; and one of exactly 4,096 rows. A byte more is a row more where n is 1.
fn with_faults(table: &Table) -> Vec<Table> {
    let (n, bytes) = (table.n, &table.bytes);
    let variables = [0, 258].map(|n| Table { n, bytes: bytes.clone() });
    let longer = [MOST_ROWS, MOST_ROWS + 1].map(|rows| lengthened(n, bytes, rows));
    let others = [vec![[&bytes[..], &[1]].concat()], longer.to_vec(), with_large_entries(n, bytes)].concat();
    [variables.to_vec(), others.into_iter().map(|bytes| Table { n, bytes }).collect()].concat()
}

/// The rows with entries above 50: in a row before them, in one behind them, in the rows themselves.
fn with_large_entries(n: usize, body: &[u8]) -> Vec<Vec<u8>> {
    let large = vec![LARGEST_ENTRY + 1; n];
    let raised = body.iter().map(|entry| entry + LARGEST_ENTRY).collect();
    vec![[&large, body].concat(), [body, &large].concat(), raised]
}

/// The first of so many tables, a middle one and the last.
fn places(number: usize) -> Vec<usize> {
    let mut places = vec![0, number / 2, number - 1];
    places.dedup();
    places
}

/// The tables with another at a place.
fn replaced((n, bodies): &Bodies, place: usize, body: Vec<u8>) -> Bodies {
    let mut others = bodies.clone();
    others[place] = body;
    (*n, others)
}

/// For each n, number of tables and order of rows: tables of which the first, a middle one or the last has these rows.
fn several(variables: &[usize], numbers: &[usize], orders: &[&[usize]]) -> Vec<Bodies> {
    let mut all = Vec::new();
    for &n in variables {
        for &number in numbers {
            let distinct = (n, vec![rows(n, DISTINCT); number]);
            for place in places(number) {
                all.extend(orders.iter().map(|order| replaced(&distinct, place, rows(n, order))));
            }
        }
    }
    all
}

/// The tables themselves, and with entries above 50 in the first, a middle one and the last.
fn with_entries(tables: &Bodies) -> Vec<Bodies> {
    let (n, bodies) = tables;
    let mut all = vec![tables.clone()];
    for place in places(bodies.len()) {
        let large = with_large_entries(*n, &bodies[place]);
        all.extend(large.into_iter().map(|body| replaced(tables, place, body)));
    }
    all
}

/// Bundles with equal rows.
pub fn bundles() -> Vec<Vec<u8>> {
    all_bundles(&several(&VARIABLES, &[1, 3, MOST_TABLES], &ORDERS))
}

/// Some of them: two variables and three tables, rows side by side or far apart.
pub fn few_bundles() -> Vec<Vec<u8>> {
    all_bundles(&several(&[2], &[3], &[ORDERS[2], ORDERS[4]]))
}

/// The bundle of the tables, alone and with each other fault.
fn all_bundles(several: &[Bodies]) -> Vec<Vec<u8>> {
    let entries = several.iter().flat_map(with_entries).map(|(n, bodies)| pack(n, &bodies));
    entries.chain(several.iter().flat_map(|(n, bodies)| with_header_faults(&pack(*n, bodies)))).collect()
}

/// The bundle with 1, 9, 3, 10 and 11: n, the number of tables, the bundle's length; the rows, then the offset of the
/// first table and of the last; bytes that remain, a byte less, a row more in the last table.
fn with_header_faults(bundle: &[u8]) -> Vec<Vec<u8>> {
    let with = |at: usize, bytes: &[u8]| [&bundle[..at], bytes, &bundle[at + bytes.len()..]].concat();
    let raised = |at: usize| with(at, &(u16::from_le_bytes([bundle[at], bundle[at + 1]]) + 1).to_le_bytes());
    let last = 2 + 4 * (usize::from(bundle[1]) - 1);
    let sizes = [with(0, &[0]), with(0, &[7]), with(1, &[0]), with(1, &[17]), lengthened(1, bundle, MOST_BYTES + 1)];
    let places = [with(2, &[1, 16]), with(last, &[1, 16]), raised(4), raised(last + 2)];
    let bodies = [[bundle, &[1]].concat(), bundle[..bundle.len() - 1].to_vec(), raised(last)];
    [&sizes[..], &places, &bodies].concat()
}

/// Parts with equal rows, alone and with each other fault; and those of bundles of 65,535 bytes and of more.
pub fn parts() -> Vec<Parts> {
    let several = several(&VARIABLES, &[1, 3, MOST_TABLES], &ORDERS);
    let entries = several.iter().flat_map(with_entries).map(|(n, bodies)| Parts::of(n, &bodies));
    let others = several.iter().flat_map(with_faults_of_parts);
    entries.chain(others).chain(long_parts()).collect()
}

/// The parts with 1, 9, 2 and 3: n, the number of tables, the bytes, the rows of the first table and of the last.
fn with_faults_of_parts(given: &Bodies) -> Vec<Parts> {
    let (n, bodies) = given;
    let sound = Parts::of(*n, bodies);
    let variables = [0, 7].map(|n| Parts { n, ..sound.clone() });
    let tables = [0, MOST_TABLES + 1].map(|number| {
        let counts = sound.counts.iter().copied().chain([0; MOST_TABLES + 1]).take(number).collect();
        Parts { counts, ..sound.clone() }
    });
    let length = sound.tables.len();
    let bytes = [[&sound.tables[..], &[1]].concat(), sound.tables[..length - 1].to_vec()];
    let bytes = bytes.map(|tables| Parts { tables, ..sound.clone() });
    let rows = [0, bodies.len() - 1].map(|table| {
        let (n, others) = replaced(given, table, lengthened(*n, &bodies[table], MOST_ROWS + 1));
        Parts::of(n, &others)
    });
    [&variables[..], &tables, &bytes, &rows].concat()
}

/// Parts of bundles of 65,535 bytes, of 65,536 and of the most rows, with equal rows in the first, a middle and the
/// last table.
fn long_parts() -> Vec<Parts> {
    let most = MOST_TABLES * MOST_ROWS * 6;
    let lengths = [(3, MOST_BYTES), (5, MOST_BYTES + 1), (6, 2 + 4 * MOST_TABLES + most)];
    lengths.iter().flat_map(|&(n, bytes)| [0, 7, 15].map(|table| long_part(n, bytes, table))).collect()
}

/// The first rows of all in order in each of 16 tables; in one of them the last row is the first again.
fn long_part(n: usize, bytes: usize, table: usize) -> Parts {
    let mut bodies = spread_counted(n, bytes);
    let body = &mut bodies[table];
    let last = body.len() - n;
    body.copy_within(..n, last);
    Parts::of(n, &bodies)
}

/// Tables of sound bundles that share rows: a table at several places; the last row of one as the first of the next,
/// also with a table without rows between.
pub fn apart() -> Vec<Bodies> {
    let mut all = Vec::new();
    for n in 1..=6 {
        let [ascending, descending] = [rows(n, &[0, 1]), rows(n, &[1, 0])];
        all.extend([2, 3, MOST_TABLES].map(|number| (n, vec![rows(n, DISTINCT); number])));
        all.push((n, vec![row(n, 3); MOST_TABLES]));
        all.push((n, vec![ascending.clone(), descending.clone(), ascending.clone()]));
        all.push((n, vec![ascending, Vec::new(), descending]));
    }
    all
}
