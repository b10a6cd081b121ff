//! A script up to some line, which can be run again.
use crate::error::Error;
use crate::options::Options;
use crate::reading::read_lines;
use crate::script::{cut_lines, next_command};
use crate::selection::Lines;
use std::sync::{Arc, Mutex, PoisonError};

/// A script that may grow, and how much of it counts.
#[derive(Debug, Clone)]
pub(crate) struct Past {
    script: Arc<Mutex<Vec<u8>>>,
    length: usize,
    pub(crate) options: Options,
}

impl Past {
    pub(crate) fn new(script: Vec<u8>, options: Options) -> Past {
        Past { length: script.len(), script: Arc::new(Mutex::new(script)), options }
    }

    /// Adds a line.
    pub(crate) fn push(&mut self, line: &str) {
        let mut script = self.script.lock().unwrap_or_else(PoisonError::into_inner);
        script.extend_from_slice(line.as_bytes());
        script.push(b'\n');
        self.length = script.len();
    }

    /// The script, as much of it as counts.
    pub(crate) fn script(&self) -> Vec<u8> {
        let script = self.script.lock().unwrap_or_else(PoisonError::into_inner);
        script[..self.length].to_vec()
    }

    /// The lines of its transcript with the trace.
    pub(crate) fn traced(&self) -> Result<Lines, Error> {
        let script = self.script();
        let (_, bytes) = Options { trace: true, ..self.options.clone() }.transcript_of(&script)?;
        let source = String::from_utf8_lossy(&script);
        let source = cut_lines(&source);
        Ok(read_lines(&String::from_utf8_lossy(&bytes), |last| next_command(&source, last), 1))
    }
}
