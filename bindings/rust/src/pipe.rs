//! The pipe to a program that is talked to.
use std::io::{self, BufRead, BufReader, Write};
use std::process::{Child, ChildStdin, ExitStatus};
use std::sync::mpsc::{channel, Receiver};
use std::thread::{Builder, JoinHandle};

/// A program that was started. It is written to and read a line at a time. A thread reads it all the while, since a program
/// that waits until its answers are taken reads nothing.
pub(crate) struct Pipe {
    child: Child,
    input: Option<ChildStdin>,
    lines: Receiver<Vec<u8>>,
    reader: Option<JoinHandle<()>>,
}

impl Pipe {
    /// Where no thread can be had the program is ended.
    pub(crate) fn new(mut child: Child) -> io::Result<Pipe> {
        let (sender, lines) = channel();
        let (input, output) = (child.stdin.take(), child.stdout.take());
        let reader = Builder::new().spawn(move || {
            let Some(mut output) = output.map(BufReader::new) else { return };
            loop {
                let mut line = Vec::new();
                match output.read_until(b'\n', &mut line) {
                    Ok(1..) if sender.send(line).is_ok() => {}
                    Err(error) if error.kind() == io::ErrorKind::Interrupted => {}
                    _ => return,
                }
            }
        });
        match reader {
            Ok(reader) => Ok(Pipe { child, input, lines, reader: Some(reader) }),
            Err(error) => {
                let _ = child.kill();
                let _ = child.wait();
                Err(error)
            }
        }
    }

    pub(crate) fn process(&self) -> u32 {
        self.child.id()
    }

    /// Writes to the program. One that has ended takes nothing, which the next line tells.
    pub(crate) fn give(&mut self, text: &[u8]) -> io::Result<()> {
        match self.input.as_mut().map(|input| input.write_all(text)) {
            Some(Err(error)) if error.kind() != io::ErrorKind::BrokenPipe => Err(error),
            _ => Ok(()),
        }
    }

    /// The next line, with its line feed, but of one that was cut off; none where the program has ended.
    pub(crate) fn line(&mut self) -> Option<Vec<u8>> {
        self.lines.recv().ok()
    }

    /// Ends what the program reads.
    pub(crate) fn stop_giving(&mut self) {
        self.input = None;
    }

    /// How the program ended, which is read to its end before.
    pub(crate) fn ended(&mut self) -> io::Result<ExitStatus> {
        self.stop_giving();
        let ended = self.child.wait();
        if let Some(reader) = self.reader.take() {
            let _ = reader.join();
        }
        ended
    }
}

impl Drop for Pipe {
    /// Ends the program wherever it is. The reader is not waited for: a process that the program has started may hold the
    /// other end of its pipe.
    fn drop(&mut self) {
        if self.reader.is_some() {
            self.stop_giving();
            let _ = self.child.kill();
            let _ = self.child.wait();
        }
    }
}
