//! Runs the jobs of `getopts_bench` with other libraries, and prints the same checksums.
//!
//! usage: peers PEER JOB ROWS READY TIMES
//!
//! PEER is `getopts` (the Rust crate, or its replacement), `lexopt`, `pico-args` or `clap`. The top
//! of `crates/getopts_bench/src/main.rt` describes jobs and rows. All peers do `whole`. `getopts`
//! also does the other jobs, except `canonical` and `order`, which the crate lacks. For `loop`, the
//! crate does `whole`, since it has no loop. The replacement also does `order`, and `os`, which is
//! `whole` with `parse_os`. `lexopt` does the same for `order` and `loop`.
//!
//! Iterations consume the words that they parse. READY copies of the words, at least TIMES, are
//! made before the first iteration. Only `held` makes its words in each iteration: copies that wait
//! would count as memory. The status is 2 if the peer doesn't do the job.

mod clap_peer;
mod getopts_peer;
mod input;
mod lexopt_peer;
mod pico_peer;

use input::{Args, Input};
use std::path::Path;
use std::process::ExitCode;

fn main() -> ExitCode {
    let words: Vec<String> = std::env::args().skip(1).collect();
    match sum_of(&words) {
        Some(sum) => {
            println!("{sum}");
            ExitCode::SUCCESS
        }
        None => {
            eprintln!("usage: peers PEER JOB ROWS READY TIMES; not every peer does every job");
            ExitCode::from(2)
        }
    }
}

/// The sum of the job given by the arguments.
fn sum_of(words: &[String]) -> Option<usize> {
    let [peer, job, rows, ready, times] = words else {
        return None;
    };
    let (input, times) = (Input::of(rows)?, times.parse().ok()?);
    let mut copies = vec![input.args(); ready.parse().ok()?];
    let mut args = || copies.pop().expect("a copy for each iteration");
    if peer == "getopts" {
        return getopts_peer::run(job, &input, &mut args, times);
    }
    let line = Path::new(rows).file_stem()?.to_str()?;
    let iteration: Box<dyn Fn(Args) -> usize> = match (peer.as_str(), job.as_str()) {
        ("lexopt", "whole") => Box::new(lexopt_peer::iteration_of(line)?),
        ("lexopt", "order" | "loop") => Box::new(lexopt_peer::order_of(line)?),
        ("pico-args", "whole") => Box::new(|args| pico_peer::iteration(&input, args)),
        ("clap", "whole") => Box::new(|args| clap_peer::iteration(&input, args)),
        _ => return None,
    };
    Some(iterations(times, || iteration(args())))
}

/// The wrapping sum of the results of all iterations.
fn iterations(times: usize, mut iteration: impl FnMut() -> usize) -> usize {
    (0..times).fold(0, |sum, _| sum.wrapping_add(iteration()))
}
