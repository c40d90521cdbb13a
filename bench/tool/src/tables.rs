//! Tables as docs/benchmarks.md has them.

/// The heads, and the line below them.
pub fn heads(heads: &[&str]) {
    println!("\n| {} |", heads.join(" | "));
    println!("|{}", "---|".repeat(heads.len()));
}

pub fn line(cells: &[String]) {
    println!("| {} |", cells.join(" | "));
}

/// The line of a call: its time, what more is said of it, and the times beside it, each with how many times that one it is.
pub fn beside(name: &str, bytes: usize, time: f64, more: &[String], others: &[Option<f64>]) {
    let mut cells = vec![name.to_string(), size(bytes), ms(Some(time))];
    cells.extend_from_slice(more);
    for other in others {
        cells.extend([ms(*other), ratio(time, *other)]);
    }
    line(&cells);
}

/// Milliseconds, or a dash where there are none.
pub fn ms(time: Option<f64>) -> String {
    time.map_or("-".to_string(), |time| format!("{time:.2}"))
}

/// How many times another time this one is.
pub fn ratio(time: f64, other: Option<f64>) -> String {
    other.map_or("-".to_string(), |other| format!("{:.2}", time / other))
}

/// A size in bytes, as people say it.
fn size(bytes: usize) -> String {
    format!("{} MB", bytes >> 20)
}
