//! Programs as processes, and the median of several runs.
use crate::table::WAYS;
use std::hint::black_box;
use std::io::{Read, Result as Io, Write};
use std::path::{Path, PathBuf};
use std::process::{Child, Command, Stdio};
use std::sync::mpsc;
use std::thread;
use std::time::{Duration, Instant};

/// The programs that are compared.
pub const PROGRAMS: usize = WAYS + 1;

/// The most that is read of what a program prints: 65,535 readings of 64 fragments are half as long.
const MOST: u64 = 1 << 26;

/// Standard output and standard error.
type Printed = (Vec<u8>, Vec<u8>);

/// A program that takes a sheet on standard input and prints its list.
pub struct Program {
    pub path: PathBuf,
    pub arguments: Vec<String>,
}

impl Program {
    /// `bixtogan list`, which is built beside this program; the other ways; `readings`.
    pub fn all(readings: &str) -> Result<[Program; PROGRAMS], String> {
        let this = std::env::current_exe().map_err(|why| why.to_string())?;
        let ours = this.with_file_name("bixtogan");
        for (path, make) in [(Path::new(readings), "tools/build readings"), (&ours, "cargo build --release")] {
            if !path.exists() {
                return Err(format!("{} is not there: `{make}` makes it", path.display()));
            }
        }
        let program = |path: &Path, words: &[&str]| Program {
            path: path.to_path_buf(),
            arguments: words.iter().map(|word| word.to_string()).collect(),
        };
        Ok([
            program(&ours, &["list"]),
            program(&this, &["list", "recursion"]),
            program(&this, &["list", "reduced"]),
            program(&this, &["list", "free"]),
            program(Path::new(readings), &[]),
        ])
    }

    pub fn command(&self) -> Command {
        let mut command = Command::new(&self.path);
        command.args(&self.arguments);
        command
    }

    /// What the program prints; nothing where it can't be run.
    pub fn output(&self, sheet: &[u8]) -> Vec<u8> {
        run(self.command(), sheet).map(|(out, _)| out).unwrap_or_default()
    }

    /// The same where it ends within the limit.
    pub fn output_within(&self, limit: Duration, sheet: &[u8]) -> Option<Vec<u8>> {
        let printed = run_within(limit, self.command(), sheet).unwrap_or_else(|_| Some(Printed::default()));
        printed.map(|(out, _)| out)
    }
}

fn start(mut command: Command, sheet: &[u8]) -> Io<Child> {
    let mut child = command.stdin(Stdio::piped()).stdout(Stdio::piped()).stderr(Stdio::piped()).spawn()?;
    if let Some(mut input) = child.stdin.take() {
        input.write_all(sheet)?;
    }
    Ok(child)
}

fn all_of(pipe: Option<impl Read>) -> Io<Vec<u8>> {
    let mut bytes = Vec::new();
    if let Some(pipe) = pipe {
        pipe.take(MOST).read_to_end(&mut bytes)?;
    }
    Ok(bytes)
}

/// Runs a command on a sheet.
fn run(command: Command, sheet: &[u8]) -> Io<Printed> {
    let mut child = start(command, sheet)?;
    let printed = (all_of(child.stdout.take())?, all_of(child.stderr.take())?);
    child.wait()?;
    Ok(printed)
}

/// The same, but a process that has not ended within the limit is killed: then none. Not to be timed, for it starts a thread.
pub fn run_within(limit: Duration, command: Command, sheet: &[u8]) -> Io<Option<Printed>> {
    let mut child = start(command, sheet)?;
    let (out, errors) = (child.stdout.take(), child.stderr.take());
    let (sender, receiver) = mpsc::channel();
    thread::spawn(move || sender.send((all_of(out), all_of(errors))));
    let Ok((out, errors)) = receiver.recv_timeout(limit) else {
        child.kill()?;
        child.wait()?;
        return Ok(None);
    };
    child.wait()?;
    Ok(Some((out?, errors?)))
}

/// The median times of so many runs of each way that is wanted, in turn so that a busy machine slows all alike, after two that
/// warm up.
pub fn medians<T, const N: usize>(
    repeat: usize,
    wanted: [bool; N],
    mut run: impl FnMut(usize) -> T,
) -> [Option<Duration>; N] {
    let ways: Vec<usize> = (0..N).filter(|&way| wanted[way]).collect();
    for _ in 0..2 {
        ways.iter().for_each(|&way| drop(black_box(run(way))));
    }
    let mut times: [Vec<Duration>; N] = std::array::from_fn(|_| Vec::with_capacity(repeat));
    for _ in 0..repeat {
        for &way in &ways {
            let start = Instant::now();
            let answer = black_box(run(way));
            times[way].push(start.elapsed());
            drop(answer);
        }
    }
    times.map(|mut times| {
        times.sort_unstable();
        times.get(repeat / 2).copied()
    })
}

#[cfg(test)]
mod tests {
    use super::*;

    #[test]
    fn a_process_over_the_limit_is_killed() {
        let within = |seconds: &str, limit| {
            let mut command = Command::new("sleep");
            command.arg(seconds);
            run_within(limit, command, &[]).unwrap()
        };
        assert_eq!(within("0", Duration::from_secs(60)), Some(Printed::default()));
        assert_eq!(within("60", Duration::from_millis(20)), None);
    }

    #[test]
    fn only_what_is_wanted_is_run() {
        let mut runs = [0; 3];
        let times = medians(3, [true, false, true], |way| runs[way] += 1);
        assert_eq!(runs, [5, 0, 5]);
        assert_eq!(times.map(|time| time.is_some()), [true, false, true]);
    }
}
