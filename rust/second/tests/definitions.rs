//! The quick forms of this crate against the paper's words, tried on all monomials of small boxes.

use second::completion::completed;
use second::counting::{count, polynomial, steady};
use second::division::{
    all_marks, degree, find, has_equal_rows, is_complete, is_inside, janet_divides, strictly_ascends, times, Monomial,
};

/// A small generator of numbers; the same seed gives the same tables.
struct Numbers(u64);

impl Numbers {
    fn below(&mut self, bound: u64) -> u64 {
        self.0 = self.0.wrapping_mul(6364136223846793005).wrapping_add(1442695040888963407);
        (self.0 >> 33) % bound
    }
}

/// Random rows of n exponents up to `largest`.
fn random_rows(numbers: &mut Numbers, n: usize, largest: u8) -> Vec<Monomial> {
    let rows = numbers.below(7);
    (0..rows).map(|_| random_row(numbers, n, largest)).collect()
}

fn random_row(numbers: &mut Numbers, n: usize, largest: u8) -> Monomial {
    let mut row = [0; 6];
    for exponent in &mut row[..n] {
        *exponent = numbers.below(u64::from(largest) + 1) as u8;
    }
    row
}

/// All monomials of n exponents up to `largest`, ascending.
fn all_in_box(n: usize, largest: u8) -> Vec<Monomial> {
    let mut all = vec![[0; 6]];
    for place in 0..n {
        all = all
            .iter()
            .flat_map(|u| {
                (0..=largest).map(move |e| {
                    let mut v = *u;
                    v[place] = e;
                    v
                })
            })
            .collect();
    }
    all
}

/// Rule 5 in its own words, with the outside monomial sought in a box one larger than the rows.
fn rule_5(n: usize, given: &[Monomial], cells: &[Monomial], largest: u8, u: &Monomial) -> bool {
    is_inside(given, u)
        && (0..n).filter(|&place| u[place] > 0).all(|place| {
            cells.iter().any(|v| {
                let mut raised = *v;
                raised[place] = largest;
                v[..place] == u[..place]
                    && v[place] + 1 == u[place]
                    && !is_inside(given, v)
                    && is_inside(given, &raised)
            })
        })
}

/// Janet's own way: while a product has no Janet divisor, the products of the least degree that have none are added.
fn by_products(n: usize, given: &[Monomial]) -> Vec<Monomial> {
    let mut rows: Vec<Monomial> = second::completion::minimal(given);
    loop {
        let marks = all_marks(n, &rows);
        let open = |q: &Monomial| !rows.iter().zip(&marks).any(|(u, &m)| janet_divides(u, m, q));
        let products = rows
            .iter()
            .zip(&marks)
            .flat_map(|(u, &m)| (0..n).filter(move |place| m >> place & 1 == 0).map(move |place| times(u, place)));
        let mut lacking: Vec<Monomial> = products.filter(open).collect();
        let least = match lacking.iter().map(degree).min() {
            Some(least) => least,
            None => break,
        };
        lacking.retain(|q| degree(q) == least);
        rows.extend(lacking);
        rows.sort();
        rows.dedup();
    }
    rows.sort();
    rows
}

#[test]
fn equal_rows_are_two_places() {
    let mut numbers = Numbers(4);
    let mut seen = [0; 2];
    for n in 1..=6 {
        for _ in 0..200 {
            let rows = random_rows(&mut numbers, n, 1);
            let equal = (0..rows.len()).any(|place| rows[..place].contains(&rows[place]));
            assert_eq!(has_equal_rows(&rows), equal, "{rows:?}");
            seen[usize::from(equal)] += 1;
        }
    }
    assert!(seen[0] >= 200 && seen[1] >= 200, "{seen:?}");
}

#[test]
fn completion_is_rule_5() {
    let mut numbers = Numbers(5);
    for (n, largest, rounds) in [(1, 4, 100), (2, 4, 600), (3, 3, 400), (4, 2, 100)] {
        let cells = all_in_box(n, largest + 1);
        for _ in 0..rounds {
            let given = random_rows(&mut numbers, n, largest);
            let kept: Vec<Monomial> = cells.iter().filter(|u| rule_5(n, &given, &cells, largest, u)).copied().collect();
            assert_eq!(completed(n, &given, 4096), Some(kept), "{given:?}");
        }
    }
}

#[test]
fn completion_is_reached_by_products() {
    let mut numbers = Numbers(6);
    for n in 1..=6 {
        for _ in 0..60 {
            let given = random_rows(&mut numbers, n, 12 / n as u8 + 1);
            let rows = completed(n, &given, 4096).expect("small tables fit");
            assert_eq!(rows, by_products(n, &given), "{given:?}");
            assert!(strictly_ascends(&rows) && is_complete(n, &rows));
        }
    }
}

#[test]
fn room_is_exact() {
    let mut numbers = Numbers(7);
    for _ in 0..300 {
        let given = random_rows(&mut numbers, 3, 5);
        let rows = completed(3, &given, 4096).expect("small tables fit").len();
        assert!(completed(3, &given, rows).is_some());
        assert!(rows == 0 || completed(3, &given, rows - 1).is_none());
    }
}

#[test]
fn one_divisor_inside_none_outside() {
    let mut numbers = Numbers(8);
    for n in 1..=4 {
        for _ in 0..40 {
            let given = random_rows(&mut numbers, n, 3);
            let rows = completed(n, &given, 4096).expect("small tables fit");
            let marks = all_marks(n, &rows);
            for q in all_in_box(n, 4) {
                let divisors = rows.iter().zip(&marks).filter(|(u, &m)| janet_divides(u, m, &q)).count();
                assert_eq!(divisors, usize::from(is_inside(&given, &q)), "{q:?} of {given:?}");
                let found = find(n, &rows, &q);
                assert_eq!(found.row.is_some(), divisors == 1);
                assert!(found.steps <= degree(&q) + n);
            }
        }
    }
}

#[test]
fn counts_are_counts() {
    let mut numbers = Numbers(9);
    for n in 1..=4 {
        let cells = all_in_box(n, 8);
        for _ in 0..40 {
            let given = random_rows(&mut numbers, n, 3);
            for s in 0..=8 {
                let outside = cells.iter().filter(|q| degree(q) <= s && !is_inside(&given, q)).count();
                assert_eq!(count(n, &given, s), outside as u64, "{given:?} at {s}");
            }
        }
    }
}

#[test]
fn polynomial_and_count_agree_from_the_steady_degree_on() {
    let mut numbers = Numbers(10);
    for n in 1..=6 {
        for _ in 0..20 {
            let rows = completed(n, &random_rows(&mut numbers, n, 2), 4096).expect("small tables fit");
            let start = steady(&rows);
            assert!((start..start + 30).all(|s| polynomial(n, &rows, s) == count(n, &rows, s) as i64), "{rows:?}");
        }
    }
}

/// C(t, m) for any t, as rule 8 reads it.
fn binomial(t: i64, m: i64) -> i64 {
    if t < 0 {
        let sign = if m % 2 == 1 { -1 } else { 1 };
        return sign * binomial(m - t - 1, m);
    }
    (0..m).fold(1, |value, k| value * (t - k) / (k + 1))
}

#[test]
fn polynomial_is_rule_8() {
    let mut numbers = Numbers(11);
    for n in 1..=6 {
        for _ in 0..20 {
            let rows = completed(n, &random_rows(&mut numbers, n, 2), 4096).expect("small tables fit");
            let marks = all_marks(n, &rows);
            for s in 0..20 {
                let share = |(u, m): (&Monomial, &u8)| {
                    let marked = i64::from(m.count_ones());
                    binomial(s as i64 - degree(u) as i64 + marked, marked)
                };
                let shares: i64 = rows.iter().zip(&marks).map(share).sum();
                assert_eq!(polynomial(n, &rows, s), binomial((n + s) as i64, n as i64) - shares, "{rows:?} at {s}");
            }
        }
    }
}
