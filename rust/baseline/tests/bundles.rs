//! The quick programs on bundles against the second program: sound bundles, full ones, ones with equal rows, damaged
//! ones and noise.

use baseline::{bundle, listing};
use inputs::parts::{self, Parts};
use inputs::random::Random;
use inputs::{bundles, equal};

/// How many bundles a test takes.
const BUNDLES: usize = 1000;

/// A sound bundle, a full one, one with equal rows, a damaged one, or random bytes.
fn any_bundle(random: &mut Random) -> Vec<u8> {
    match random.below(100) {
        0 => bundles::full(random),
        1..=10 => bundles::noise(random),
        11..=20 => bundles::repeated(random, 1, 16),
        21..=50 => {
            let sound = bundles::several(random, 1, 6);
            bundles::damage(random, sound)
        }
        _ => bundles::several(random, 1, 16),
    }
}

/// A thousand bundles, of which at least 300 are sound and at least 300 are not, those at the limits, those with equal
/// rows and another fault, and those where equal rows are no fault.
fn many(seed: u64) -> Vec<Vec<u8>> {
    let mut random = Random::new(seed);
    let all: Vec<Vec<u8>> = (0..BUNDLES).map(|_| any_bundle(&mut random)).collect();
    let sound = all.iter().filter(|bytes| second::bundle::tables(bytes).is_ok()).count();
    assert!(sound >= 300 && BUNDLES - sound >= 300, "{sound} of {BUNDLES} bundles are sound");
    let apart = equal::apart().iter().map(|(n, bodies)| bundles::pack(*n, bodies)).collect();
    [all, bundles::at_limits(), equal::bundles(), apart].concat()
}

#[test]
fn opened_tables_agree() {
    for bytes in many(1) {
        for table in 0..18 {
            let wanted = second::bundle::open(&bytes, table).ok().map(|opened| (opened.n, opened.body(&bytes)));
            assert_eq!(bundle::open(&bytes, table), wanted, "table {table} of {bytes:?}");
        }
    }
}

#[test]
fn listings_agree() {
    for bytes in many(2) {
        let sound = second::bundle::tables(&bytes).is_ok();
        let wanted = sound.then(|| second::listing::listing(&bytes));
        let written = listing::listing(&bytes).map(|text| String::from_utf8(text).expect("plain letters"));
        assert_eq!(written, wanted, "{bytes:?}");
    }
}

/// The parts of a sound bundle, of one of 65,535 bytes or of one too long, or parts with equal rows or other faults.
fn any_parts(random: &mut Random) -> Parts {
    match random.below(100) {
        0 => parts::longest(random),
        1 => parts::beyond(random),
        2..=10 => parts::repeated(random, 1, 16),
        11..=50 => {
            let sound = parts::several(random, 1, 6);
            parts::damage(random, sound)
        }
        _ => parts::several(random, 1, 16),
    }
}

#[test]
fn written_bundles_agree() {
    let mut random = Random::new(3);
    let all: Vec<Parts> = (0..BUNDLES).map(|_| any_parts(&mut random)).collect();
    let mut answered = 0;
    let apart = equal::apart().iter().map(|(n, bodies)| Parts::of(*n, bodies)).collect();
    for parts in [all, parts::at_limits(), equal::parts(), apart].concat() {
        let exact = parts.length();
        for length in [0, exact - 1, exact, exact + 1, 70_000] {
            let (mut buffer, mut wanted) = (vec![200; length], vec![200; length]);
            let bytes = second::writer::write(parts.n, &parts.counts, &parts.tables, &mut wanted).ok();
            assert_eq!(bundle::write(parts.n, &parts.counts, &parts.tables, &mut buffer), bytes, "{length}, {parts:?}");
            assert_eq!(buffer, wanted, "{length}, {parts:?}");
            answered += usize::from(bytes.is_some());
        }
    }
    assert!(answered >= BUNDLES, "{answered} bundles were written");
}
