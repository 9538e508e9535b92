//! The lines of the report: times in a fitting unit, ratios, and what a ratio may be.

/// What is asked of a ratio or of a time.
#[derive(Clone, Copy)]
pub enum Limit {
    /// At most so many times the quickest plain program; where that needs less than 0.15 ms, 1 ms is enough.
    Completion(f64),
    /// At most so many times the quickest plain program.
    Times(f64),
    /// At most so many seconds.
    Seconds(f64),
    /// Nothing is asked.
    None,
}

impl Limit {
    /// Whether a time keeps the limit.
    fn keeps(self, ours: f64, plain: f64) -> bool {
        match self {
            Limit::Completion(times) => ours <= times * plain || (plain < 150e-6 && ours <= 1e-3),
            Limit::Times(times) => ours <= times * plain,
            Limit::Seconds(most) => ours <= most,
            Limit::None => true,
        }
    }

    /// The limit in words.
    fn words(self) -> String {
        match self {
            Limit::Completion(times) | Limit::Times(times) => format!("at most {times}"),
            Limit::Seconds(most) => format!("at most {}", time(most)),
            Limit::None => "-".into(),
        }
    }
}

/// A time with its unit.
pub fn time(seconds: f64) -> String {
    match seconds {
        s if s < 1e-6 => format!("{:.0} ns", s * 1e9),
        s if s < 1e-3 => format!("{:.1} µs", s * 1e6),
        s if s < 1.0 => format!("{:.2} ms", s * 1e3),
        s => format!("{s:.2} s"),
    }
}

/// The head of a part of the report: its name, and the names of the programs beside ours.
pub fn head(name: &str, others: &[&str]) {
    let columns: String = others.iter().map(|other| format!("{other:>11}")).collect();
    println!("\n{name:<44}{:>11}{columns}{:>9}  limit", "ours", "ratio");
}

/// A line: our time, the others' (the last `naive` of them are no measure for us), the ratio to the quickest plain one.
/// Gives whether the limit is kept.
pub fn line(name: &str, times: &[f64], naive: usize, limit: Limit) -> bool {
    let plain = times[1..times.len() - naive].iter().copied().fold(f64::INFINITY, f64::min);
    let columns: String = times.iter().map(|&seconds| format!("{:>11}", time(seconds))).collect();
    let kept = limit.keeps(times[0], plain);
    let remark = if kept { "" } else { "  OVER" };
    println!("{name:<44}{columns}{:>9.2}  {}{remark}", times[0] / plain, limit.words());
    kept
}
