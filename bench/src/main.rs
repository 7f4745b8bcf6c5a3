//! Measures programs on one input: `bench INPUT PROGRAM...`.
//!
//! Checks that all write the same, then prints for each its user time (the mean of many runs, and the best), its system
//! time, rows a second, resident memory, and its mean user time as a ratio to the first program's. It holds no input or output
//! itself, for Linux counts the memory of a process that starts another to the other's peak.

use std::fs::File;
use std::io::{self, BufRead, BufReader, Read};
use std::os::raw::{c_int, c_long};
use std::process::{Command, ExitCode, Stdio};

const RUNS: u32 = 20;

fn main() -> ExitCode {
    let words: Vec<String> = std::env::args().skip(1).collect();
    let [input, programs @ ..] = words.as_slice() else {
        eprintln!("usage: bench INPUT PROGRAM...");
        return ExitCode::from(2);
    };
    match bench(input, programs) {
        Ok(true) => ExitCode::SUCCESS,
        Ok(false) => ExitCode::FAILURE,
        Err(error) => {
            eprintln!("bench: {error}");
            ExitCode::FAILURE
        }
    }
}

fn bench(input: &str, programs: &[String]) -> io::Result<bool> {
    let rows = count_rows(input)?;
    println!("{rows} rows, {RUNS} runs of each program");
    let mut outputs = Vec::new();
    for (place, program) in programs.iter().enumerate() {
        let output = format!("{input}.{place}.out");
        run(program, input, File::create(&output)?.into())?;
        outputs.push(output);
    }
    for (output, program) in outputs.iter().zip(programs).skip(1) {
        if !same(&outputs[0], output)? {
            println!("the outputs of {} and {program} differ: {} and {output}", programs[0], outputs[0]);
            return Ok(false);
        }
    }
    if programs.len() > 1 {
        println!("all outputs are equal");
    }
    // In turns, so that a busy moment of the machine meets all of them.
    let mut totals = vec![Usage { best: f64::INFINITY, ..Usage::default() }; programs.len()];
    for _ in 0..RUNS {
        for (total, program) in totals.iter_mut().zip(programs) {
            let usage = run(program, input, Stdio::null())?;
            total.user += usage.user / f64::from(RUNS);
            total.best = total.best.min(usage.user);
            total.system += usage.system / f64::from(RUNS);
            total.memory = total.memory.max(usage.memory);
        }
    }
    println!("user ms  best ms  system ms  rows/s     memory KB  ratio  program");
    for (total, program) in totals.iter().zip(programs) {
        println!(
            "{:7.1}  {:7.1}  {:9.1}  {:9.0}  {:9}  {:5.2}  {program}",
            1e3 * total.user,
            1e3 * total.best,
            1e3 * total.system,
            rows as f64 / total.user,
            total.memory,
            total.user / totals[0].user
        );
    }
    Ok(true)
}

fn count_rows(path: &str) -> io::Result<u64> {
    let mut reader = BufReader::new(File::open(path)?);
    let mut rows = 0;
    while reader.skip_until(b'\n')? > 0 {
        rows += 1;
    }
    Ok(rows)
}

fn same(a: &str, b: &str) -> io::Result<bool> {
    let (a, b) = (File::open(a)?, File::open(b)?);
    if a.metadata()?.len() != b.metadata()?.len() {
        return Ok(false);
    }
    let (a, b) = (BufReader::new(a).bytes(), BufReader::new(b).bytes());
    for (a, b) in a.zip(b) {
        if a? != b? {
            return Ok(false);
        }
    }
    Ok(true)
}

/// Seconds, the user time of the best run among them, and kilobytes at the peak.
#[derive(Clone, Copy, Default)]
struct Usage {
    user: f64,
    best: f64,
    system: f64,
    memory: c_long,
}

fn run(program: &str, input: &str, output: Stdio) -> io::Result<Usage> {
    let child = Command::new(program).stdin(File::open(input)?).stdout(output).spawn();
    let child = child.map_err(|error| io::Error::new(error.kind(), format!("{program}: {error}")))?;
    let (status, usage) = wait(child.id() as c_int)?;
    if status != 0 {
        return Err(io::Error::other(format!("{program} ended with status {status}")));
    }
    Ok(usage)
}

/// The C library's rusage on 64-bit Linux.
#[repr(C)]
#[derive(Default)]
struct RawUsage {
    user: [c_long; 2],
    system: [c_long; 2],
    memory: c_long,
    others: [c_long; 13],
}

extern "C" {
    fn wait4(process: c_int, status: *mut c_int, options: c_int, usage: *mut RawUsage) -> c_int;
}

fn wait(process: c_int) -> io::Result<(c_int, Usage)> {
    let mut status = 0;
    let mut raw = RawUsage::default();
    // SAFETY: both pointers are to live places of the sizes that the call fills.
    if unsafe { wait4(process, &mut status, 0, &mut raw) } != process {
        return Err(io::Error::last_os_error());
    }
    let seconds = |[seconds, micros]: [c_long; 2]| seconds as f64 + micros as f64 / 1e6;
    Ok((
        status,
        Usage { user: seconds(raw.user), best: seconds(raw.user), system: seconds(raw.system), memory: raw.memory },
    ))
}
