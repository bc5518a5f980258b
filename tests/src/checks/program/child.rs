//! Runs a program on a text, fed in one of several ways, and takes what it prints.

use crate::runner::ensure;
use std::fs::{self, File};
use std::io::{Read, Write};
use std::path::{Path, PathBuf};
use std::process::{self, Command, Stdio};
use std::thread;
use std::time::{Duration, Instant};

/// After this many seconds a run counts as hanging.
const PATIENCE: Duration = Duration::from_secs(120);

/// How the text reaches the program.
#[derive(Clone, Copy)]
pub enum Feed<'a> {
    /// Through a pipe, all at once: a read gives what fits the pipe.
    Pipe,
    /// From a file: a read gives all that it asks for.
    File,
    /// Through a pipe, in pieces of these sizes with a pause after each: a read gives a piece, most of the time.
    Pieces(&'a [usize]),
}

pub struct Child {
    program: PathBuf,
    /// The file for `Feed::File`.
    file: PathBuf,
}

impl Child {
    pub fn new(program: &Path) -> Child {
        let file = std::env::temp_dir().join(format!("senna-text-{}", process::id()));
        Child { program: program.to_path_buf(), file }
    }

    /// What the program prints for a text. It must end by itself with status 0, take the whole text, and print no error.
    pub fn run(&self, text: &[u8], feed: Feed) -> Result<Vec<u8>, String> {
        let stdin = match feed {
            Feed::File => {
                fs::write(&self.file, text).map_err(|error| format!("cannot write a file of input: {error}"))?;
                Stdio::from(File::open(&self.file).map_err(|error| format!("cannot read the file of input: {error}"))?)
            }
            Feed::Pipe | Feed::Pieces(_) => Stdio::piped(),
        };
        let mut child = Command::new(&self.program)
            .stdin(stdin)
            .stdout(Stdio::piped())
            .stderr(Stdio::piped())
            .spawn()
            .map_err(|error| format!("cannot start {}: {error}", self.program.display()))?;
        let input = child.stdin.take();
        let mut output = child.stdout.take().expect("standard output is a pipe");
        let mut errors = child.stderr.take().expect("standard error is a pipe");
        thread::scope(|scope| {
            let writing = scope.spawn(move || input.map_or(Ok(()), |pipe| write_all(pipe, text, feed)));
            let printing = scope.spawn(move || read_all(&mut output));
            let complaining = scope.spawn(move || read_all(&mut errors));
            let start = Instant::now();
            let status = loop {
                match child.try_wait() {
                    Ok(Some(status)) => break Ok(status),
                    Ok(None) if start.elapsed() < PATIENCE => thread::sleep(Duration::from_micros(500)),
                    Ok(None) => {
                        let _ = child.kill();
                        let _ = child.wait();
                        break Err(format!("it did not end within {} s", PATIENCE.as_secs()));
                    }
                    Err(error) => break Err(format!("cannot wait for it: {error}")),
                }
            };
            let printed = printing.join().map_err(|_| String::from("the reader panicked"))?;
            let complaint = complaining.join().map_err(|_| String::from("the reader panicked"))?;
            let written = writing.join().map_err(|_| String::from("the writer panicked"))?;
            let status = status?;
            ensure!(status.success(), "it ended with {status}");
            ensure!(written.is_ok(), "it did not read the whole text: {written:?}");
            ensure!(complaint.is_empty(), "it wrote to standard error: {:?}", String::from_utf8_lossy(&complaint));
            Ok(printed)
        })
    }
}

impl Drop for Child {
    fn drop(&mut self) {
        let _ = fs::remove_file(&self.file);
    }
}

/// Writes the text whole or in pieces, and closes the pipe.
fn write_all(mut pipe: process::ChildStdin, text: &[u8], feed: Feed) -> std::io::Result<()> {
    let Feed::Pieces(sizes) = feed else {
        return pipe.write_all(text);
    };
    let mut rest = text;
    let mut sizes = sizes.iter().cycle();
    while !rest.is_empty() {
        let size = sizes.next().map_or(rest.len(), |&size| size.min(rest.len()));
        let (piece, after) = rest.split_at(size);
        pipe.write_all(piece)?;
        thread::sleep(Duration::from_micros(50));
        rest = after;
    }
    Ok(())
}

/// All that comes from a pipe until it is closed.
fn read_all(pipe: &mut impl Read) -> Vec<u8> {
    let mut bytes = Vec::new();
    let _ = pipe.read_to_end(&mut bytes);
    bytes
}
