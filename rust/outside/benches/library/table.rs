//! Markdown tables of what was measured.

use crate::measure::Measured;

/// Prints the head of a table whose first column says what was measured.
pub fn head(title: &str, first: &str) {
    head_beside(title, first, "plain Rust");
}

/// The same where the library stands beside something else than plain Rust.
pub fn head_beside(title: &str, first: &str, other: &str) {
    println!("## {title}\n");
    println!("| {first} | library | {other} | library / {other} | samples |");
    println!("|---|---:|---:|---:|---:|");
}

/// Prints a row of times.
pub fn row(what: &str, measured: &Measured) {
    let Measured { library, plain, ratio, samples } = measured;
    println!("| {what} | {} | {} | {} | {samples} |", time(*library), time(*plain), fraction(*ratio));
}

/// Prints the head of a table with counts before the times.
pub fn counted_head(title: &str, first: &str, counts: &[&str]) {
    let counted: String = counts.iter().map(|count| format!(" {count} |")).collect();
    println!("## {title}\n");
    println!("| {first} |{counted} library | plain Rust | library / plain Rust | samples |");
    println!("|---|{}---:|---:|---:|---:|", "---:|".repeat(counts.len()));
}

/// Prints a row of counts and times.
pub fn counted_row(what: &str, counts: &[u64], measured: &Measured) {
    let counted: String = counts.iter().map(|&count| format!(" {} |", thousands(count))).collect();
    let Measured { library, plain, ratio, samples } = measured;
    println!("| {what} |{counted} {} | {} | {} | {samples} |", time(*library), time(*plain), fraction(*ratio));
}

/// Prints a row of times, or of dashes where nothing was measured.
pub fn row_if(what: &str, measured: Option<&Measured>) {
    match measured {
        Some(measured) => row(what, measured),
        None => println!("| {what} | – | – | – | – |"),
    }
}

/// Prints a row of rates, for so many bytes a call.
pub fn rate_row(what: &str, bytes: usize, measured: &Measured) {
    let rate = |seconds: f64| format!("{:.0} MB/s", bytes as f64 / seconds / 1e6);
    let Measured { library, plain, ratio, samples } = measured;
    println!("| {what} | {} | {} | {ratio:.2} | {samples} |", rate(*library), rate(*plain));
}

/// Ends a table.
pub fn end() {
    println!();
}

/// A time with three figures.
fn time(seconds: f64) -> String {
    let units = [(1.0, "s"), (1e-3, "ms"), (1e-6, "µs"), (1e-9, "ns")];
    let (unit, name) = units.into_iter().find(|(unit, _)| seconds >= *unit).unwrap_or((1e-9, "ns"));
    let value = seconds / unit;
    let digits = if value >= 100.0 {
        0
    } else if value >= 10.0 {
        1
    } else {
        2
    };
    format!("{value:.digits$} {name}")
}

/// A ratio with two decimals, or as one of so many where they would be zeros.
fn fraction(ratio: f64) -> String {
    match ratio {
        0.01.. => format!("{ratio:.2}"),
        _ => format!("1/{}", thousands((1.0 / ratio).round() as u64)),
    }
}

/// A count in groups of three figures.
pub fn thousands(count: u64) -> String {
    match count / 1_000 {
        0 => count.to_string(),
        more => format!("{},{:03}", thousands(more), count % 1_000),
    }
}
