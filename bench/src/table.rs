//! Tables in Markdown.
use std::time::Duration;

/// Ours, the recursion, the recursion on a reduced graph, free fragments.
pub const WAYS: usize = 4;

const NAMES: [&str; WAYS + 1] = ["ours", "recursion", "reduced", "free fragments", "our `readings`"];

/// What is compared, and in which unit. The program `readings` comes after the others where it is compared as well.
pub fn heading(what: &str, unit: &str, ways: usize) {
    println!("{what}, {unit}. A ratio above 1 is in our favour.\n");
    let ratios: Vec<String> = NAMES[1..ways].iter().map(|name| format!("{name} / ours")).collect();
    println!("| sheet | readings | {} | {} |", NAMES[..ways].join(" | "), ratios.join(" | "));
    println!("|---|{}", "---:|".repeat(2 * ways));
}

/// What a way takes.
#[derive(Clone, Copy)]
pub enum Amount {
    Of(f64),
    /// It was ended there.
    Over(f64),
    Unknown,
}

impl Amount {
    fn cell(self) -> String {
        match self {
            Amount::Unknown => "-".to_string(),
            Amount::Over(amount) => format!("> {}", (amount * 100.0).floor() / 100.0),
            Amount::Of(amount) if amount < 1.0 => format!("{amount:.3}"),
            Amount::Of(amount) => format!("{amount:.2}"),
        }
    }

    /// How many times as much as ours it is.
    fn ratio(self, ours: Amount) -> Amount {
        match (self, ours) {
            (Amount::Of(amount), Amount::Of(ours)) => Amount::Of(amount / ours),
            (Amount::Over(amount), Amount::Of(ours)) => Amount::Over(amount / ours),
            _ => Amount::Unknown,
        }
    }
}

pub fn row<const N: usize>(name: &str, readings: &str, amounts: [Amount; N]) {
    let ratios: Vec<String> = amounts[1..].iter().map(|other| other.ratio(amounts[0]).cell()).collect();
    println!("| {name} | {readings} | {} | {} |", amounts.map(Amount::cell).join(" | "), ratios.join(" | "));
}

/// Of the programs: one without a time has run until the limit.
pub fn milliseconds<const N: usize>(times: [Option<Duration>; N], limit: Duration) -> [Amount; N] {
    let amount = |time: Duration| time.as_secs_f64() * 1e3;
    times.map(|time| time.map_or(Amount::Over(amount(limit)), |time| Amount::Of(amount(time))))
}

pub fn microseconds<const N: usize>(times: [Option<Duration>; N]) -> [Amount; N] {
    times.map(|time| time.map_or(Amount::Unknown, |time| Amount::Of(time.as_secs_f64() * 1e6)))
}

#[cfg(test)]
mod tests {
    use super::Amount;

    #[test]
    fn over_the_limit() {
        let (over, ours) = (Amount::Over(10_000.0), Amount::Of(1500.0));
        assert_eq!([over, over.ratio(ours), ours.ratio(over)].map(Amount::cell), ["> 10000", "> 6.66", "-"]);
    }
}
