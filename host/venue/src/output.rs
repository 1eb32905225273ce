//! Standard output, held back until there is much of it, and standard error.

use std::io::{self, BufWriter, Stdout, Write};

/// How many bytes are held back, so that little output is not written at all where the
/// input turns out to be wrong.
const HELD: usize = 65_536;

/// The output of a command.
pub struct Out(BufWriter<Stdout>);

impl Out {
    pub fn new() -> Self {
        Out(BufWriter::with_capacity(HELD, io::stdout()))
    }

    /// Writes what is held.
    pub fn finish(mut self) -> io::Result<()> {
        self.0.flush()
    }

    /// Forgets what is held.
    pub fn discard(self) {
        // A writer that is dropped would write it.
        let _ = self.0.into_parts();
    }
}

impl Write for Out {
    fn write(&mut self, bytes: &[u8]) -> io::Result<usize> {
        self.0.write(bytes)
    }

    fn flush(&mut self) -> io::Result<()> {
        self.0.flush()
    }
}

/// Tells something on standard error, after the name of who tells it. Where nobody reads
/// that, there is nobody to tell.
pub fn tell(name: &str, what: &str) {
    let _ = writeln!(io::stderr(), "{name}: {what}");
}
