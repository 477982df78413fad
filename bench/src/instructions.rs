//! Instructions that a program executes, by callgrind.
use crate::measure::{run_within, Program};
use std::process::Command;
use std::time::Duration;

/// None where there is no valgrind, or where it takes longer than the limit.
pub fn of(program: &Program, sheet: &[u8], limit: Duration) -> Option<u64> {
    let mut command = Command::new("valgrind");
    command.args(["--tool=callgrind", "--callgrind-out-file=/dev/null"]);
    command.arg(&program.path).args(&program.arguments);
    let (_, errors) = run_within(limit, command, sheet).ok()??;
    collected(&String::from_utf8_lossy(&errors))
}

/// The number after "Collected :".
fn collected(text: &str) -> Option<u64> {
    let line = text.lines().find(|line| line.contains("Collected"))?;
    line.split(':').nth(1)?.trim().parse().ok()
}

#[cfg(test)]
mod tests {
    #[test]
    fn the_number_is_found() {
        assert_eq!(super::collected("==1== Events    : Ir\n==1== Collected : 156742\n"), Some(156_742));
        assert_eq!(super::collected("valgrind: no"), None);
    }
}
