//! Calls the library through `tests/c/caller.c`. That is a program of its own, since the
//! library is for x86-64 and this program is for whatever machine it runs on.

use std::io::{self, Read, Write};
use std::path::{Path, PathBuf};
use std::process::{Child, ChildStdin, ChildStdout, Command, Stdio};

/// An x86-64 program, and the words, if any, that go before it to run it on this machine.
pub struct Program {
    pub under: Vec<String>,
    pub path: PathBuf,
}

impl Program {
    /// The command that runs the program, with pipes for its input and outputs.
    pub fn command(&self) -> Command {
        let mut words = self.under.iter().map(Path::new).chain([self.path.as_path()]);
        let mut command = Command::new(words.next().expect("the program itself"));
        command.args(words).stdin(Stdio::piped()).stdout(Stdio::piped());
        command
    }
}

/// The calls, by the numbers that the program knows them by.
#[derive(Clone, Copy)]
pub enum Call {
    Load = 1,
    Assemble = 2,
}

/// The running program that makes the calls.
pub struct Caller {
    child: Child,
    input: ChildStdin,
    output: ChildStdout,
}

impl Caller {
    /// Starts the program; an error names it.
    pub fn start(program: &Program) -> io::Result<Caller> {
        let named = |error| io::Error::other(format!("{}: {error}", program.path.display()));
        let mut child = program.command().spawn().map_err(named)?;
        let input = child.stdin.take().expect("standard input is a pipe");
        let output = child.stdout.take().expect("standard output is a pipe");
        Ok(Caller { child, input, output })
    }

    /// Makes the call, and gives the answer and all lent bytes with their guards.
    pub fn call(
        &mut self,
        call: Call,
        argument: u32,
        buffers: [&[u8]; 3],
    ) -> io::Result<(u64, Vec<u8>)> {
        let mut bytes = lent(buffers);
        let [first, second, third] = buffers.map(|buffer| buffer.len() as u32);
        let head = [call as u32, argument, first, second, third];
        self.input.write_all(&head.map(u32::to_be_bytes).concat())?;
        self.input.write_all(&bytes)?;
        self.input.flush()?;
        let mut answer = [0; 8];
        self.output.read_exact(&mut answer)?;
        self.output.read_exact(&mut bytes)?;
        Ok((u64::from_be_bytes(answer), bytes))
    }

    /// Ends the program, and says whether it ended well.
    pub fn stop(self) -> io::Result<bool> {
        let Caller { mut child, input, output } = self;
        drop((input, output));
        Ok(child.wait()?.success())
    }
}

pub const GUARD: usize = 64;

/// Guard bytes and a buffer, three times, and guard bytes again.
pub fn lent(buffers: [&[u8]; 3]) -> Vec<u8> {
    let guard: [u8; GUARD] = std::array::from_fn(|place| (place * 7) as u8 ^ 0xA5);
    let mut bytes = guard.to_vec();
    for buffer in buffers {
        bytes.extend(buffer);
        bytes.extend(guard);
    }
    bytes
}

/// Names the first byte in which the lent bytes of these buffers are not as wanted.
pub fn wrong_byte(got: &[u8], wanted: [&[u8]; 3], names: [&'static str; 3]) -> Option<String> {
    let all = lent(wanted);
    let place = (0..all.len()).find(|&place| got.get(place) != Some(&all[place]))?;
    let mut start = GUARD;
    for (name, buffer) in names.into_iter().zip(wanted) {
        if place < start {
            return Some(format!("a guard byte before the {name}"));
        }
        if place < start + buffer.len() {
            return Some(format!("byte {} of the {name}", place - start));
        }
        start += buffer.len() + GUARD;
    }
    Some("a guard byte behind all buffers".to_string())
}

/// One of the lent buffers.
pub fn buffer(lent: &[u8], lengths: [usize; 3], which: usize) -> &[u8] {
    let before: usize = lengths[..which].iter().map(|length| length + GUARD).sum();
    &lent[GUARD + before..][..lengths[which]]
}
