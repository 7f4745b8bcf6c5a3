//! Runs a program on the markets of many seeds and compares its output, byte for byte, with the second implementation's:
//! `compare PROGRAM DIRECTORY [FIRST COUNT]`. `compare codes PROGRAM DIRECTORY [FIRST COUNT]` does so with a program that
//! reads contract codes, on the codes of many seeds, and `compare interest PROGRAM DIRECTORY [FIRST COUNT]` with one that
//! tells the open interest after each row, on markets without their calendars. An input whose output differs is left in the
//! directory, with its trading calendar.

use std::fs;
use std::io::{self, ErrorKind, Read, Write};
use std::ops::Range;
use std::os::fd::AsRawFd;
use std::os::raw::c_int;
use std::os::unix::fs::{symlink, PermissionsExt};
use std::os::unix::process::CommandExt;
use std::path::{Path, PathBuf};
use std::process::{Command, ExitCode, ExitStatus, Stdio};
use std::thread;
use std::time::Duration;

use second::calendar::{File, MOST_BYTES, MOST_DATES};
use second::codes::Date;
use second::interest_lines;
use second::market::{calendar, codes, kind, market, odd_calendar, trades_to_the_limit, with_days, with_sections};
use second::program::{finish, write_calendar, End, Folder, Program, PATIENCE};
use second::random::Random;
use second::rows::Rows;
use second::{code_lines, gate_seeds, output, replay, GATE_CALENDARS, GATE_CODES, GATE_INTEREST};

/// How long a program may take where it has next to nothing to do.
const AT_ONCE: Duration = Duration::from_secs(5);

/// How many differences are told in full.
const TOLD: u64 = 5;

/// So many markets are run once more with days in the place of dates, and so many with every section written.
const REWRITTEN: usize = 50;

#[derive(Clone, Copy, PartialEq, Eq)]
enum Subject {
    Markets,
    Codes,
    Interest,
}

struct Options {
    subject: Subject,
    program: PathBuf,
    directory: PathBuf,
    seeds: Vec<u64>,
    /// Of calendars that are compared beside the markets.
    calendars: Range<u64>,
}

type Case = fn(&mut Comparison) -> Result<(), String>;

/// Why a case that can't be run everywhere wasn't passed.
enum Unpassed {
    Failed(String),
    Skipped(String),
}

impl From<String> for Unpassed {
    fn from(why: String) -> Self {
        Unpassed::Failed(why)
    }
}

impl From<io::Error> for Unpassed {
    fn from(error: io::Error) -> Self {
        Unpassed::Failed(error.to_string())
    }
}

struct Comparison {
    program: Program,
    directory: PathBuf,
    passed: u64,
    failed: u64,
}

fn main() -> ExitCode {
    let words: Vec<String> = std::env::args().skip(1).collect();
    let Some(Options { subject, program, directory, seeds, calendars }) = options(&words) else {
        eprintln!("usage: compare [codes | interest] PROGRAM DIRECTORY [FIRST COUNT]");
        return ExitCode::from(2);
    };
    if !program.is_file() {
        eprintln!("{}: there is no such program", program.display());
        return ExitCode::from(2);
    }
    if let Err(error) = fs::create_dir_all(&directory) {
        eprintln!("{}: {error}", directory.display());
        return ExitCode::from(2);
    }
    let folder = match Folder::new("compare") {
        Ok(folder) => folder,
        Err(error) => {
            eprintln!("no folder to run in: {error}");
            return ExitCode::from(2);
        }
    };
    let program = Program::new(program, folder);
    let mut comparison = Comparison { program, directory, passed: 0, failed: 0 };
    match subject {
        Subject::Markets => comparison.markets(seeds, calendars),
        Subject::Codes => comparison.codes(seeds),
        Subject::Interest => comparison.interest(seeds),
    }
    println!("{} passed, {} failed", comparison.passed, comparison.failed);
    if comparison.failed == 0 {
        ExitCode::SUCCESS
    } else {
        ExitCode::FAILURE
    }
}

fn options(words: &[String]) -> Option<Options> {
    let (subject, gate, words) = match words {
        [word, rest @ ..] if word == "codes" => (Subject::Codes, GATE_CODES.collect(), rest),
        [word, rest @ ..] if word == "interest" => {
            (Subject::Interest, GATE_INTEREST.into_iter().flatten().collect(), rest)
        }
        _ => (Subject::Markets, gate_seeds().collect(), words),
    };
    let (program, directory, seeds, calendars) = match words {
        [program, directory] => (program, directory, gate, GATE_CALENDARS),
        [program, directory, first, count] => {
            let first: u64 = first.parse().ok()?;
            let seeds = first..first.checked_add(count.parse().ok()?)?;
            (program, directory, seeds.clone().collect(), seeds)
        }
        _ => return None,
    };
    // The program runs in a folder of its own, where a path that isn't absolute may lead elsewhere.
    let program = fs::canonicalize(program).unwrap_or(program.into());
    Some(Options { subject, program, directory: directory.into(), seeds, calendars })
}

impl Comparison {
    fn count(&mut self, name: &str, result: Result<(), String>) {
        match result {
            Ok(()) => self.passed += 1,
            Err(why) => {
                self.failed += 1;
                if self.failed <= TOLD {
                    println!("{name}: {why}");
                }
            }
        }
    }

    fn count_or_skip(&mut self, name: &str, result: Result<(), Unpassed>) {
        match result {
            Ok(()) => self.count(name, Ok(())),
            Err(Unpassed::Failed(why)) => self.count(name, Err(why)),
            Err(Unpassed::Skipped(why)) => println!("{name}: skipped, {why}"),
        }
    }

    fn markets(&mut self, seeds: Vec<u64>, calendars: Range<u64>) {
        for &seed in &seeds {
            let result = self.market(seed);
            self.count(&format!("market {seed} ({:?})", kind(seed)), result);
        }
        for seed in calendars {
            let result = self.odd_calendar(seed);
            self.count(&format!("calendar {seed}"), result);
        }
        for &seed in seeds.iter().filter(|&&seed| lists_by_date(seed)).take(REWRITTEN) {
            let result = self.days_for_dates(seed);
            self.count(&format!("market {seed} with days for dates"), result);
        }
        for &seed in seeds.iter().filter(|&&seed| leaves_sections_out(seed)).take(REWRITTEN) {
            let result = self.written_sections(seed);
            self.count(&format!("market {seed} with every section written"), result);
        }
        let cases: [(&str, Case); 10] = [
            ("closed output", Self::closed_output),
            ("failed write", Self::failed_write),
            ("read error", Self::read_error),
            ("calendar that is a folder", Self::folder_for_a_calendar),
            ("calendar that is a link to nowhere", Self::link_to_nowhere),
            ("calendar that is a link to a calendar", Self::link_to_a_calendar),
            ("calendar of a byte too many", Self::byte_too_many),
            ("calendar without end", Self::endless_calendar),
            ("calendar of 1,000 dates", Self::thousand_dates),
            ("refused calendar, and an input that says nothing", Self::silent_input),
        ];
        for (name, case) in cases {
            let result = case(self);
            self.count(name, result);
        }
        let result = self.forbidden_calendar();
        self.count_or_skip("calendar without the right to read it", result);
        let result = self.pipe_for_a_calendar();
        self.count_or_skip("calendar that is a pipe", result);
    }

    fn codes(&mut self, seeds: Vec<u64>) {
        for seed in seeds {
            let result = self.lines_of_codes(seed);
            self.count(&format!("codes {seed}"), result);
        }
    }

    fn interest(&mut self, seeds: Vec<u64>) {
        for seed in seeds {
            let result = self.interest_of_market(seed);
            self.count(&format!("open interest of market {seed} ({:?})", kind(seed)), result);
        }
        let result = self.ends_of_rows();
        self.count("open interest where rows end", result);
        let result = self.interest_of_endless_rows();
        self.count("open interest of rows that go on and on", result);
        let result = self.largest_interest();
        self.count("largest open interest", result);
    }

    /// The whole output on one market.
    fn market(&mut self, seed: u64) -> Result<(), String> {
        let (calendar, input) = (calendar(seed), market(seed));
        let expected = answers(&calendar, &input);
        self.put(&calendar)?;
        let end = self.run_on_file_or_pieces(&input, seed);
        self.keep(&format!("market-{seed}"), &calendar, &input, check(end, &input, &expected))
    }

    fn run_on_file_or_pieces(&self, input: &[u8], seed: u64) -> End {
        let mut random = Random::new(seed);
        if random.one_in(4) {
            self.program.run_on_file(input)
        } else {
            self.program.run_on_pieces(input, random)
        }
    }

    /// The whole output on a calendar that is refused, or might be. The rows ask for the dates that it might have.
    fn odd_calendar(&mut self, seed: u64) -> Result<(), String> {
        let calendar = odd_calendar(seed);
        let input = listings_by_its_dates(&calendar);
        let expected = answers(&calendar, &input);
        self.put(&calendar)?;
        let end = self.program.run_on_file(&input);
        self.keep(&format!("calendar-{seed}"), &calendar, &input, check(end, &input, &expected))
    }

    /// A market gives the lines of the same market that has days in the place of dates, and needs no calendar then.
    fn days_for_dates(&mut self, seed: u64) -> Result<(), String> {
        let (file, input) = (calendar(seed), market(seed));
        self.put(&file)?;
        let (by_date, _) = self.program.run_on_file(&input)?;
        self.put(&File::Missing)?;
        let rewritten = with_days(&input, &file.calendar().unwrap_or_default());
        let end = self.program.run_on_file(&rewritten);
        self.keep(&format!("days-{seed}"), &file, &input, check(end, &input, &by_date))
    }

    /// A market gives the lines of the same market that has sections 0 wherever it leaves sections out.
    fn written_sections(&mut self, seed: u64) -> Result<(), String> {
        let (file, input) = (calendar(seed), market(seed));
        self.put(&file)?;
        let (left_out, _) = self.program.run_on_file(&input)?;
        let end = self.program.run_on_file(&with_sections(&input, 0));
        self.keep(&format!("sections-{seed}"), &file, &input, check(end, &input, &left_out))
    }

    /// The whole output on the codes of one seed.
    fn lines_of_codes(&self, seed: u64) -> Result<(), String> {
        let input = codes(seed);
        let expected = code_lines::lines(&input);
        let result = self.program.run_on_file(&input).and_then(|(output, status)| {
            if output != expected {
                return Err(first_unlike_line(&expected, &output));
            }
            succeeded(status)
        });
        self.keep(&format!("codes-{seed}"), &File::Missing, &input, result)
    }

    /// The whole output on one market. The program may stop reading before the market ends.
    fn interest_of_market(&self, seed: u64) -> Result<(), String> {
        let input = market(seed);
        let end = self.run_on_file_or_pieces(&input, seed);
        self.check_interest(&seed.to_string(), &input, end)
    }

    /// Inputs with hardly a row, and inputs with a trade that ends at any distance from the last byte that is read.
    fn ends_of_rows(&self) -> Result<(), String> {
        for input in ["", "V", "V\r", "\n\r", "V\r\n", "V\r\nV", "V\r\n\r", "\r\n\n\r\r\n"] {
            self.interest_of("short", input.as_bytes())?;
        }
        for shift in 0..TRADE.len() {
            self.interest_of("long", &trades_across_the_end(shift))?;
        }
        Ok(())
    }

    /// Far more than is read, on a pipe: whoever writes to it may find it closed.
    fn interest_of_endless_rows(&self) -> Result<(), String> {
        let input = format!("{LISTING}{}", TRADE.repeat(50_000)).into_bytes();
        let end = self.program.run_on_pieces(&input, Random::new(0));
        self.check_interest("endless", &input, end)
    }

    /// A series with as many contracts as the position limit lets accounts have.
    fn largest_interest(&self) -> Result<(), String> {
        let input = fullest_series();
        let lines = String::from_utf8(interest_lines::lines(&input)).expect("lines are of digits and commas");
        if !lines.contains(",3200000,") {
            return Err("3,200,000 contracts are not reached".to_string());
        }
        self.interest_of("fullest", &input)
    }

    fn interest_of(&self, name: &str, input: &[u8]) -> Result<(), String> {
        self.check_interest(name, input, self.program.run_on_file(input))
    }

    fn check_interest(&self, name: &str, input: &[u8], end: End) -> Result<(), String> {
        let result = check(end, input, &interest_lines::lines(input));
        self.keep(&format!("interest-{name}"), &File::Missing, input, result)
    }

    fn put(&mut self, calendar: &File) -> Result<(), String> {
        self.program.folder.put(calendar).map_err(|error| error.to_string())
    }

    /// Leaves an input and its calendar in a folder of the directory if the result is a failure.
    fn keep(&self, name: &str, calendar: &File, input: &[u8], result: Result<(), String>) -> Result<(), String> {
        let folder = self.directory.join(name);
        // What an earlier run may have left.
        let _ = fs::remove_dir_all(&folder);
        let Err(why) = result else { return Ok(()) };
        let path = folder.join("input.csv");
        let left = fs::create_dir(&folder)
            .and_then(|()| write_calendar(&folder, calendar))
            .and_then(|()| fs::write(&path, input));
        match left {
            Ok(()) => Err(format!("{why}\n  input: {}", path.display())),
            Err(error) => Err(format!("{why}\n  {}: {error}", path.display())),
        }
    }

    /// A program whose output nobody reads comes to an end all the same.
    fn closed_output(&mut self) -> Result<(), String> {
        self.put(&File::Missing)?;
        let mut child = self.program.start(Stdio::piped())?;
        drop(child.stdout.take());
        let mut pipe = child.stdin.take().expect("it was asked for");
        thread::spawn(move || while pipe.write_all(&b"I\r\n".repeat(10_000)).is_ok() {});
        for _ in 0..PATIENCE.as_millis() / 10 {
            match child.try_wait() {
                Ok(Some(_)) => return Ok(()),
                Ok(None) => thread::sleep(Duration::from_millis(10)),
                Err(error) => return Err(error.to_string()),
            }
        }
        let _ = child.kill();
        Err("it runs on".into())
    }

    /// After a write that fails nothing more is written, though it could be: what is there is the beginning of the output.
    fn failed_write(&mut self) -> Result<(), String> {
        self.put(&File::Missing)?;
        let rows = b"I\r\n".repeat(60_000);
        let expected = answers(&File::Missing, &rows.repeat(2));
        let (mut reader, writer) = io::pipe().map_err(|error| error.to_string())?;
        fail_when_full(&writer).map_err(|error| error.to_string())?;
        let child = self.program.command().stdin(Stdio::piped()).stdout(writer).spawn();
        let mut child = child.map_err(|error| error.to_string())?;
        let mut pipe = child.stdin.take().expect("it was asked for");
        // Longer than a pipe holds: once it is sent, the program has gone through most of it, and its output was full.
        let _ = pipe.write_all(&rows);
        let mut output = vec![0; expected.len()];
        let room = reader.read(&mut output).map_err(|error| error.to_string())?;
        output.truncate(room);
        let _ = pipe.write_all(&rows);
        drop(pipe);
        child.wait().map_err(|error| error.to_string())?;
        reader.read_to_end(&mut output).map_err(|error| error.to_string())?;
        if !expected.starts_with(&output) {
            return Err("it went on after a gap".into());
        }
        if output.len() == expected.len() {
            return Err("no write failed".into());
        }
        Ok(())
    }

    /// An input that can't be read, as a directory can't, gives the header alone.
    fn read_error(&mut self) -> Result<(), String> {
        self.put(&File::Missing)?;
        let directory = fs::File::open(&self.directory).map_err(|error| error.to_string())?;
        let (output, status) = finish(self.program.start(directory)?, PATIENCE)?;
        if output != output::HEADER {
            return Err(format!("it wrote {:?}", String::from_utf8_lossy(&output)));
        }
        if status.code().is_none() {
            return Err(format!("it ended with {status}"));
        }
        Ok(())
    }

    fn folder_for_a_calendar(&mut self) -> Result<(), String> {
        self.put(&File::Unreadable)?;
        check_refused(self.program.run_on_file(ROWS))
    }

    /// A link that leads nowhere is there and can't be read: it is not taken for no calendar.
    fn link_to_nowhere(&mut self) -> Result<(), String> {
        check_refused(self.run_with_link("nowhere", ROWS))
    }

    /// A link is read as the file that it leads to.
    fn link_to_a_calendar(&mut self) -> Result<(), String> {
        let full = full_calendar();
        let input = until_the_last_date(&full);
        let end = self.run_with_link("dates.txt", &input);
        check(end, &input, &answers(&File::Bytes(full), &input))
    }

    /// In a folder where a full calendar is named `dates.txt`, and the calendar's name is that of a link.
    fn run_with_link(&self, target: &str, input: &[u8]) -> End {
        let folder = Folder::new("link").map_err(|error| error.to_string())?;
        let linked = fs::write(folder.path().join("dates.txt"), full_calendar())
            .and_then(|()| symlink(target, folder.calendar_path()));
        linked.map_err(|error| error.to_string())?;
        Program::new(self.program.path().into(), folder).run_on_file(input)
    }

    /// Behind the lines of a full calendar one byte more, whatever it is.
    fn byte_too_many(&mut self) -> Result<(), String> {
        for byte in [b'\r', b'\n', b'0', b' ', 0] {
            self.put(&File::Bytes([&full_calendar()[..], &[byte]].concat()))?;
            check_refused(self.program.run_on_file(ROWS)).map_err(|why| format!("byte {byte}: {why}"))?;
        }
        Ok(())
    }

    /// A file that would take minutes to read is answered at once.
    fn endless_calendar(&mut self) -> Result<(), String> {
        let mut folder = Folder::new("endless").map_err(|error| error.to_string())?;
        let long = folder.put(&File::Bytes(full_calendar())).and_then(|()| {
            let file = fs::OpenOptions::new().write(true).open(folder.calendar_path())?;
            // It has no blocks beyond the lines of the calendar.
            file.set_len(1 << 40)
        });
        long.map_err(|error| error.to_string())?;
        let program = Program::new(self.program.path().into(), folder);
        check_refused(finish(program.start(Stdio::null())?, AT_ONCE))
    }

    /// The last of 1,000 dates is day 999, with the last CRLF and without.
    fn thousand_dates(&mut self) -> Result<(), String> {
        let full = full_calendar();
        let input = until_the_last_date(&full);
        for text in [&full[..], &full[..MOST_BYTES - 2]] {
            let file = File::Bytes(text.to_vec());
            self.put(&file)?;
            check(self.program.run_on_file(&input), &input, &answers(&file, &input))?;
        }
        Ok(())
    }

    /// With a refused calendar nobody has to write rows, or to end them.
    fn silent_input(&mut self) -> Result<(), String> {
        self.put(&File::Unreadable)?;
        let mut child = self.program.start(Stdio::piped())?;
        let input = child.stdin.take();
        let result = check_refused(finish(child, AT_ONCE));
        drop(input);
        result
    }

    /// Where this process may read a calendar that nobody has the right to read, as root may, a copy of the program runs as
    /// somebody else. It is skipped where this process has no right to start it so.
    fn forbidden_calendar(&mut self) -> Result<(), Unpassed> {
        const SOMEBODY: u32 = 65_534;
        let mut folder = Folder::new("forbidden")?;
        folder.put(&File::Bytes(full_calendar()))?;
        let (copy, calendar) = (folder.path().join("program"), folder.calendar_path());
        fs::copy(self.program.path(), &copy)?;
        for (path, mode) in [(folder.path(), 0o755), (&copy, 0o755), (&calendar, 0)] {
            fs::set_permissions(path, fs::Permissions::from_mode(mode))?;
        }
        let program = Program::new(copy, folder);
        let mut command = program.command();
        let as_somebody_else = fs::File::open(&calendar).is_ok();
        if as_somebody_else {
            command.uid(SOMEBODY).gid(SOMEBODY);
        }
        let child = match command.stdin(Stdio::null()).spawn() {
            Err(error) if as_somebody_else && error.kind() == ErrorKind::PermissionDenied => {
                return Err(Unpassed::Skipped(format!("for the program can't be run as somebody else: {error}")));
            }
            child => child?,
        };
        Ok(check_refused(finish(child, AT_ONCE))?)
    }

    /// A pipe is read to its end, as a file is.
    fn pipe_for_a_calendar(&mut self) -> Result<(), Unpassed> {
        let folder = Folder::new("pipe")?;
        let path = folder.calendar_path();
        match Command::new("mkfifo").arg(&path).status() {
            Ok(status) => succeeded(status).map_err(|why| format!("mkfifo: {why}"))?,
            Err(error) => return Err(Unpassed::Skipped(format!("for mkfifo can't be run: {error}"))),
        }
        let full = full_calendar();
        let input = until_the_last_date(&full);
        let file = File::Bytes(full.clone());
        // To open one end is to wait for the other. Nobody waits for this thread, and for a program that nobody writes to
        // there is an end to patience.
        thread::spawn(move || fill(&path, &full));
        let program = Program::new(self.program.path().into(), folder);
        Ok(check(program.run_on_file(&input), &input, &answers(&file, &input))?)
    }
}

/// An input for programs that have no need of it.
const ROWS: &[u8] = b"I\r\nV\r\n";

/// The first 28 days of the first months from 2000 on, until there are 1,000.
fn full_calendar() -> Vec<u8> {
    let months = (0..3).flat_map(|year| (1..=12).map(move |month| (year, month)));
    let dates = months.flat_map(|(year, month)| (1..=28).map(move |day| Date { year, month, day }));
    dates.take(MOST_DATES).flat_map(|date| format!("{date}\r\n").into_bytes()).collect()
}

/// A series by the last date of a full calendar, and evenings until nothing is left to be done.
fn until_the_last_date(full: &[u8]) -> Vec<u8> {
    let date = String::from_utf8_lossy(&full[MOST_BYTES - 8..][..6]);
    let evening = "M,0,100,100,100000\r\nV\r\n";
    format!("L,A-1.00M{date}CA1,1\r\nT,0,1,2,3,4\r\n{}", evening.repeat(1_001)).into_bytes()
}

/// Fills a named pipe and closes it. There is time to read each piece before the next one comes.
fn fill(pipe: &Path, bytes: &[u8]) -> io::Result<()> {
    let mut pipe = fs::OpenOptions::new().write(true).open(pipe)?;
    for piece in bytes.chunks(999) {
        pipe.write_all(piece)?;
        thread::sleep(Duration::from_millis(5));
    }
    Ok(())
}

/// Listings by whatever six digits there are, 60 at most.
fn listings_by_its_dates(calendar: &File) -> Vec<u8> {
    let File::Bytes(bytes) = calendar else { return ROWS.to_vec() };
    let dates = bytes.windows(6).filter(|digits| digits.iter().all(u8::is_ascii_digit));
    dates.take(60).flat_map(|date| [b"L,A-1.00M", date, b"CA1,1\r\n"].concat()).collect()
}

const LISTING: &str = "L,A-1.00M010100CA1,1,13\r\n";
const TRADE: &str = "T,0,1,2,3,0\r\n";

/// A listing, a long row that is none, and trades before and behind the last byte that is read.
fn trades_across_the_end(shift: usize) -> Vec<u8> {
    let no_row = "x".repeat(interest_lines::MOST_BYTES - 100 + shift);
    format!("{LISTING}{no_row}\r\n{}", TRADE.repeat(10)).into_bytes()
}

/// A series with as much open interest as there can be, then an exercise, and its last day.
fn fullest_series() -> Vec<u8> {
    let end = "X,0,7,99999\r\nM,0,0,100,1\r\nV\r\nM,0,0,100,1\r\nV\r\n";
    [LISTING, &trades_to_the_limit(), end].concat().into_bytes()
}

/// Whether the market of a seed has rows that leave their day to its calendar and find one there.
fn lists_by_date(seed: u64) -> bool {
    let rows = market(seed);
    calendar(seed).calendar().is_ok_and(|calendar| with_days(&rows, &calendar) != rows)
}

/// Whether the market of a seed is run, and has rows that leave their sections out.
fn leaves_sections_out(seed: u64) -> bool {
    let rows = market(seed);
    calendar(seed).calendar().is_ok() && with_sections(&rows, 0) != rows
}

fn answers(calendar: &File, input: &[u8]) -> Vec<u8> {
    let mut answers = Vec::new();
    replay(calendar, input, &mut answers).expect("memory can be read and written");
    answers
}

fn check(end: End, input: &[u8], expected: &[u8]) -> Result<(), String> {
    let (output, status) = end?;
    if output != expected {
        return Err(first_difference(input, expected, &output));
    }
    succeeded(status)
}

fn check_refused(end: End) -> Result<(), String> {
    check(end, b"", b"row,kind,series,account,amount\r\n0,A,,,21\r\n")
}

fn succeeded(status: ExitStatus) -> Result<(), String> {
    if status.success() {
        Ok(())
    } else {
        Err(format!("it ended with {status}"))
    }
}

/// Lets a write to a full pipe fail and not wait.
fn fail_when_full(pipe: &io::PipeWriter) -> io::Result<()> {
    extern "C" {
        fn fcntl(file: c_int, command: c_int, ...) -> c_int;
    }
    const F_SETFL: c_int = 4;
    const O_NONBLOCK: c_int = 0o4000;
    // SAFETY: the call takes numbers only, and the file is open.
    if unsafe { fcntl(pipe.as_raw_fd(), F_SETFL, O_NONBLOCK) } < 0 {
        return Err(io::Error::last_os_error());
    }
    Ok(())
}

/// Tells the first row whose lines differ, with both lines.
fn first_difference(input: &[u8], expected: &[u8], output: &[u8]) -> String {
    let (_, expected, output) = unlike_lines(expected, output);
    let line = if expected.is_empty() { output } else { expected };
    let number = line.split(|&byte| byte == b',').next().unwrap_or_default();
    let row: usize = String::from_utf8_lossy(number).parse().unwrap_or(0);
    let text = row_text(input, row);
    format!("row {row} differs: {text:?}\n{}", both_lines(expected, output))
}

/// Tells the first line that differs.
fn first_unlike_line(expected: &[u8], output: &[u8]) -> String {
    let (number, expected, output) = unlike_lines(expected, output);
    format!("line {number} differs\n{}", both_lines(expected, output))
}

/// The number of the first line that differs, and both lines; a line that isn't there is empty.
fn unlike_lines<'a>(expected: &'a [u8], output: &'a [u8]) -> (usize, &'a [u8], &'a [u8]) {
    let lines = |bytes: &'a [u8]| bytes.split_inclusive(|&byte| byte == b'\n');
    let alike = lines(expected).zip(lines(output)).take_while(|(a, b)| a == b).count();
    let line = |bytes: &'a [u8]| lines(bytes).nth(alike).unwrap_or_default();
    (alike + 1, line(expected), line(output))
}

fn both_lines(expected: &[u8], output: &[u8]) -> String {
    let shown = |line: &[u8]| if line.is_empty() { "nothing".into() } else { format!("\"{}\"", line.escape_ascii()) };
    format!("  expected {}\n  but got  {}", shown(expected), shown(output))
}

fn row_text(input: &[u8], number: usize) -> String {
    let mut rows = Rows::new(input);
    let mut text = String::new();
    for _ in 0..number {
        match rows.next_row() {
            Ok(Some(row)) => text = String::from_utf8_lossy(&row[..row.len().min(80)]).into_owned(),
            _ => break,
        }
    }
    text
}
