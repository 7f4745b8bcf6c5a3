//! Runs a program in a folder of its own, with a trading calendar there.

use std::fs;
use std::io::{self, Read, Write};
use std::path::{Path, PathBuf};
use std::process::{Child, Command, ExitStatus, Stdio};
use std::sync::mpsc;
use std::thread;
use std::time::Duration;

use crate::calendar::{File, FILE_NAME};
use crate::random::Random;

pub const PATIENCE: Duration = Duration::from_secs(60);

/// What a program wrote, and how it ended.
pub type End = Result<(Vec<u8>, ExitStatus), String>;

pub struct Program {
    path: PathBuf,
    pub folder: Folder,
}

impl Program {
    pub fn new(path: PathBuf, folder: Folder) -> Self {
        Program { path, folder }
    }

    pub fn path(&self) -> &Path {
        &self.path
    }

    pub fn command(&self) -> Command {
        let mut command = Command::new(&self.path);
        command.current_dir(self.folder.path()).stdout(Stdio::piped());
        command
    }

    pub fn start(&self, input: impl Into<Stdio>) -> Result<Child, String> {
        let child = self.command().stdin(input).spawn();
        child.map_err(|error| format!("{}: {error}", self.path.display()))
    }

    pub fn run_on_file(&self, input: &[u8]) -> End {
        let path = self.folder.path().join("input.csv");
        fs::write(&path, input).map_err(|error| error.to_string())?;
        let file = fs::File::open(&path).map_err(|error| error.to_string())?;
        finish(self.start(file)?, PATIENCE)
    }

    /// On a pipe that is filled in pieces of various sizes.
    pub fn run_on_pieces(&self, input: &[u8], mut random: Random) -> End {
        let mut child = self.start(Stdio::piped())?;
        let mut pipe = child.stdin.take().expect("it was asked for");
        let bytes = input.to_vec();
        let largest = random.pick(&[3, 100, 5_000, 70_000]).max(bytes.len() as u64 / 5_000);
        thread::spawn(move || {
            let mut rest = bytes.as_slice();
            while !rest.is_empty() {
                let (piece, others) = rest.split_at((random.between(1, largest) as usize).min(rest.len()));
                if pipe.write_all(piece).is_err() {
                    break;
                }
                rest = others;
            }
        });
        finish(child, PATIENCE)
    }
}

/// Reads the child's output to its end, but with an end to patience.
pub fn finish(mut child: Child, patience: Duration) -> End {
    let mut pipe = child.stdout.take().expect("it was asked for");
    let (sender, receiver) = mpsc::channel();
    thread::spawn(move || {
        let mut output = Vec::new();
        let result: io::Result<usize> = pipe.read_to_end(&mut output);
        let _ = sender.send(result.map(|_| output));
    });
    let output = receiver.recv_timeout(patience);
    if output.is_err() {
        let _ = child.kill();
    }
    let status = child.wait().map_err(|error| error.to_string())?;
    match output {
        Ok(Ok(output)) => Ok((output, status)),
        Ok(Err(error)) => Err(error.to_string()),
        Err(_) => Err(format!("no end after {} seconds", patience.as_secs())),
    }
}

/// A temporary folder, removed when it is dropped.
pub struct Folder {
    path: PathBuf,
    calendar: File,
}

impl Folder {
    pub fn new(name: &str) -> io::Result<Self> {
        let path = std::env::temp_dir().join(format!("second-{}-{name}", std::process::id()));
        // What an earlier process of that number may have left.
        let _ = fs::remove_dir_all(&path);
        fs::create_dir(&path)?;
        Ok(Folder { path, calendar: File::Missing })
    }

    pub fn path(&self) -> &Path {
        &self.path
    }

    pub fn calendar_path(&self) -> PathBuf {
        self.path.join(FILE_NAME)
    }

    /// Puts a calendar in the place of the one before.
    pub fn put(&mut self, calendar: &File) -> io::Result<()> {
        if self.calendar == *calendar {
            return Ok(());
        }
        match std::mem::replace(&mut self.calendar, File::Missing) {
            File::Missing => {}
            File::Bytes(_) => fs::remove_file(self.calendar_path())?,
            File::Unreadable => fs::remove_dir(self.calendar_path())?,
        }
        write_calendar(&self.path, calendar)?;
        self.calendar = calendar.clone();
        Ok(())
    }
}

impl Drop for Folder {
    fn drop(&mut self) {
        let _ = fs::remove_dir_all(&self.path);
    }
}

/// Writes a calendar into a folder that has none; for one that can't be read a folder of its name.
pub fn write_calendar(folder: &Path, calendar: &File) -> io::Result<()> {
    let path = folder.join(FILE_NAME);
    match calendar {
        File::Missing => Ok(()),
        File::Bytes(bytes) => fs::write(path, bytes),
        File::Unreadable => fs::create_dir(path),
    }
}
