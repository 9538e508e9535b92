//! Rule 5: the completed table, decided beginning by beginning.
//!
//! Take a beginning p, the exponents before a place. An ending e (exponents from the place on) is inside when p
//! followed by e is in the ideal. Rule 5 lets the exponent a > 0 follow p exactly when some ending that begins with
//! a - 1 is outside and comes inside when that exponent alone is raised. Such an ending w first comes inside at the
//! least exponent of the rows whose later exponents divide w's; the largest of these numbers, over all w that come
//! inside at all, is the *limit* of p: exactly the exponents up to it may follow. The smaller w, the later it comes
//! inside, so the rows' own endings suffice as w.
//!
//! - `minimal`: the rows that no other row divides, once each.
//! - `Beginning`: the exponents chosen so far and the endings that make a row of the ideal.
//! - `limit`: the largest exponent that may follow. `completed`: rule 5's table.

use crate::division::{degree, divides, Monomial, VARIABLES};

/// The exponents chosen so far, and the minimal endings that are inside after them (0 before the place).
struct Beginning {
    exponents: Monomial,
    endings: Vec<Monomial>,
}

/// Rule 5's table in ascending order; nothing when it has more rows than the room.
pub fn completed(n: usize, given: &[Monomial], room: usize) -> Option<Vec<Monomial>> {
    let mut beginnings = vec![Beginning { exponents: [0; VARIABLES], endings: minimal(given) }];
    beginnings.retain(|start| !start.endings.is_empty());
    for place in 0..n {
        beginnings = lengthen(place, &beginnings, room)?;
    }
    let rows: Vec<Monomial> = beginnings.iter().map(|whole| whole.exponents).collect();
    (rows.len() <= room).then_some(rows)
}

/// Each beginning with each exponent that rule 5 lets follow. Each that is kept leads to a row, so that more of them
/// than the room can only be refused.
fn lengthen(place: usize, beginnings: &[Beginning], room: usize) -> Option<Vec<Beginning>> {
    let mut longer = Vec::new();
    for beginning in beginnings {
        let least = beginning.endings.iter().map(|e| e[place]).min()?;
        for exponent in least..=limit(place, &beginning.endings) {
            longer.push(follow(place, beginning, exponent));
            if longer.len() > room {
                return None;
            }
        }
    }
    Some(longer)
}

/// The beginning with one exponent more. Below the least exponent of its endings there would be no ending left.
fn follow(place: usize, beginning: &Beginning, exponent: u8) -> Beginning {
    let mut exponents = beginning.exponents;
    exponents[place] = exponent;
    let reached = beginning.endings.iter().filter(|e| e[place] <= exponent);
    let endings: Vec<Monomial> = reached.map(|e| without(place, e)).collect();
    Beginning { exponents, endings: minimal(&endings) }
}

/// The largest, over the endings, of the exponent at which what follows the place in that ending comes inside.
fn limit(place: usize, endings: &[Monomial]) -> u8 {
    let mut ascending = endings.to_vec();
    ascending.sort_by_key(|e| e[place]);
    let mut largest = 0;
    for ending in ascending.iter().rev() {
        if ending[place] <= largest {
            break; // it comes inside at its own exponent at the latest, and so do those before it
        }
        let later = without(place, ending);
        let enters = ascending.iter().find(|e| divides(&without(place, e), &later));
        largest = largest.max(enters.map_or(0, |e| e[place]));
    }
    largest
}

/// The monomial with exponent 0 at a place.
fn without(place: usize, u: &Monomial) -> Monomial {
    let mut rest = *u;
    rest[place] = 0;
    rest
}

/// The rows that no other row divides, once each. By ascending degree a row's divisors come before it.
pub fn minimal(rows: &[Monomial]) -> Vec<Monomial> {
    let mut by_degree = rows.to_vec();
    by_degree.sort_by_key(degree);
    let mut kept: Vec<Monomial> = Vec::new();
    for row in by_degree {
        if !kept.iter().any(|u| divides(u, &row)) {
            kept.push(row);
        }
    }
    kept
}
