// Runs two programs alternately on the same inputs, compares what they print, and says how long each took.
use std::fs::File;
use std::path::Path;
use std::process::{self, Command, Stdio};
use std::time::Instant;
use std::{env, io};

const USAGE: &str = "usage: compare OURS PLAIN ROUNDS INPUT...";

// What the program prints of the input, and how many milliseconds it took from its start to its end.
fn run(program: &str, input: &str) -> io::Result<(Vec<u8>, f64)> {
    let mut command = Command::new(program);
    command.stdin(File::open(input)?).stderr(Stdio::inherit());
    let start = Instant::now();
    let output = command.output()?;
    Ok((output.stdout, start.elapsed().as_secs_f64() * 1000.0))
}

// The least and the median of the times.
fn summary(mut times: Vec<f64>) -> (f64, f64) {
    times.sort_by(f64::total_cmp);
    (times[0], times[times.len() / 2])
}

// Prints a line about one input; whether the programs printed the same each time, and not nothing.
fn compare(ours: &str, plain: &str, rounds: usize, input: &str) -> io::Result<bool> {
    let mut same = true;
    let (mut our_times, mut plain_times) = (Vec::new(), Vec::new());
    // round 0 only warms up
    for round in 0..=rounds {
        let (our_text, our_time) = run(ours, input)?;
        let (plain_text, plain_time) = run(plain, input)?;
        same &= our_text == plain_text && !our_text.is_empty();
        if round > 0 {
            our_times.push(our_time);
            plain_times.push(plain_time);
        }
    }
    let (our_least, our_median) = summary(our_times);
    let (plain_least, plain_median) = summary(plain_times);
    let name = Path::new(input).file_name().unwrap_or_default().to_string_lossy();
    let verdict = if same { "" } else { ", OUTPUTS DIFFER" };
    println!(
        "{name}: ours {our_least:.2} ms (median {our_median:.2}), plain {plain_least:.2} ms \
         (median {plain_median:.2}), ratio {:.2}{verdict}",
        our_least / plain_least
    );
    Ok(same)
}

fn main() -> io::Result<()> {
    let args: Vec<String> = env::args().skip(1).collect();
    let [ours, plain, rounds, inputs @ ..] = &args[..] else {
        eprintln!("{USAGE}");
        process::exit(2);
    };
    let rounds = match rounds.parse() {
        Ok(n) if n > 0 && !inputs.is_empty() => n,
        _ => {
            eprintln!("{USAGE}");
            process::exit(2);
        }
    };
    let mut same = true;
    for input in inputs {
        same &= compare(ours, plain, rounds, input)?;
    }
    process::exit(if same { 0 } else { 1 });
}
