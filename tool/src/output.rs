//! Where the result goes: one buffered writer, opened when the first byte comes.

use std::fs::File;
use std::io::{self, BufWriter, IsTerminal, Write};
use std::path::PathBuf;

/// The result's writer. A file is made only when something is written.
pub struct Output {
    file: Option<PathBuf>,
    writer: Option<BufWriter<Box<dyn Write>>>,
}

impl Output {
    /// To a file, or to standard output.
    pub fn new(file: Option<PathBuf>) -> Output {
        Output { file, writer: None }
    }

    /// Whether the result would go to a terminal.
    pub fn is_terminal(&self) -> bool {
        self.file.is_none() && io::stdout().is_terminal()
    }

    fn open(&mut self) -> io::Result<&mut BufWriter<Box<dyn Write>>> {
        if self.writer.is_none() {
            let inner: Box<dyn Write> = match &self.file {
                Some(path) => Box::new(File::create(path).map_err(|error| named(path, &error))?),
                None => Box::new(io::stdout()),
            };
            self.writer = Some(BufWriter::new(inner));
        }
        Ok(self.writer.as_mut().expect("just opened"))
    }
}

/// The same error with the file's name.
fn named(path: &std::path::Path, error: &io::Error) -> io::Error {
    io::Error::new(error.kind(), format!("{}: {error}", path.display()))
}

impl Write for Output {
    fn write(&mut self, bytes: &[u8]) -> io::Result<usize> {
        self.open()?.write(bytes)
    }

    /// An empty result makes an empty file.
    fn flush(&mut self) -> io::Result<()> {
        self.open()?.flush()
    }
}
