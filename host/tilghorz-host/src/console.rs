//! What a person sees: standard output, messages and the progress line on standard error, and the status at the end.

use std::fmt::Display;
use std::fs::File;
use std::io::{self, BufWriter, IsTerminal, Stdout, Write};
use std::mem;
use std::time::{Duration, Instant};

/// How the command ends. The greatest of several texts is the status of all.
#[derive(Debug, Clone, Copy, PartialEq, Eq, PartialOrd, Ord)]
pub enum Status {
    /// All is well.
    Good = 0,
    /// A text would change, under `--check`; or two policies differ.
    Different = 1,
    /// A text was refused, a file could not be read or written, or the command line is wrong.
    Fault = 2,
}

/// Whether what is written to standard output is coloured.
#[derive(Debug, Default, Clone, Copy, PartialEq, Eq)]
pub enum Colour {
    /// If it is a terminal that has colours. The environment may say otherwise.
    #[default]
    Auto,
    /// Always.
    Always,
    /// Never.
    Never,
}

impl Colour {
    /// The value of `--color`.
    pub fn of(text: &str) -> Result<Self, String> {
        match text {
            "auto" => Ok(Self::Auto),
            "always" => Ok(Self::Always),
            "never" => Ok(Self::Never),
            _ => Err(format!("--color {text}: neither auto, always nor never")),
        }
    }

    /// Whether it is coloured now.
    pub fn is_used(self) -> bool {
        let variable = |name| std::env::var_os(name).filter(|value| !value.is_empty());
        match self {
            Self::Always => true,
            Self::Never => false,
            Self::Auto if variable("NO_COLOR").is_some() => false,
            Self::Auto if variable("CLICOLOR_FORCE").is_some_and(|value| value != "0") => true,
            Self::Auto => {
                let is_dumb = variable("TERM").is_some_and(|value| value == "dumb");
                io::stdout().is_terminal() && !is_dumb
            }
        }
    }
}

/// Where results go.
pub enum Output {
    /// Standard output.
    Standard(Stdout),
    /// A file, for a while.
    File(File),
}

impl Write for Output {
    fn write(&mut self, bytes: &[u8]) -> io::Result<usize> {
        match self {
            Self::Standard(output) => output.write(bytes),
            Self::File(file) => file.write(bytes),
        }
    }

    fn flush(&mut self) -> io::Result<()> {
        match self {
            Self::Standard(output) => output.flush(),
            Self::File(file) => file.flush(),
        }
    }
}

/// An output with a buffer.
fn buffered(output: Output) -> BufWriter<Output> {
    BufWriter::with_capacity(1 << 16, output)
}

/// The two outputs.
pub struct Console {
    /// The results, mostly on standard output.
    pub out: BufWriter<Output>,
    /// When the progress line was last written, if it can be.
    progress: Option<Instant>,
    /// Whether the progress line stands there now.
    is_shown: bool,
}

impl Console {
    /// The console of this process.
    pub fn new() -> Self {
        let on_terminal = io::stderr().is_terminal();
        Self {
            out: buffered(Output::Standard(io::stdout())),
            progress: on_terminal.then(Instant::now),
            is_shown: false,
        }
    }

    /// Runs something with a file in the place of standard output.
    pub fn writing_to<T>(
        &mut self,
        file: File,
        run: impl FnOnce(&mut Self) -> io::Result<T>,
    ) -> io::Result<T> {
        self.out.flush()?;
        let before = mem::replace(&mut self.out, buffered(Output::File(file)));
        let done = run(self);
        let done = done.and_then(|done| self.out.flush().map(|()| done));
        self.out = before;
        done
    }

    /// Writes a text to standard output.
    pub fn print(&mut self, text: &str) -> io::Result<Status> {
        self.out.write_all(text.as_bytes())?;
        Ok(Status::Good)
    }

    /// Writes a message with the command's name to standard error.
    pub fn complain(&mut self, message: &dyn Display) {
        self.say(&format_args!("tilghorz-host: {message}"));
    }

    /// Writes a message with the command's name to standard error, for a command that has no progress line.
    pub fn warn(message: &dyn Display) {
        let _ = io::stderr().write_all(format!("tilghorz-host: {message}\n").as_bytes());
    }

    /// Writes a line to standard error, in one piece. Where that fails there is nowhere to say so.
    pub fn say(&mut self, line: &dyn Display) {
        self.clear();
        let _ = io::stderr().write_all(format!("{line}\n").as_bytes());
    }

    /// Writes the progress line to a terminal, at most ten times a second.
    pub fn progress(&mut self, line: &dyn Display) {
        const PAUSE: Duration = Duration::from_millis(100);
        if self.progress.is_some_and(|last| last.elapsed() >= PAUSE) {
            let _ = io::stderr().write_all(format!("\r\x1B[K{line}").as_bytes());
            self.progress = Some(Instant::now());
            self.is_shown = true;
        }
    }

    /// Writes what there is of a text to standard output, while the progress line may be on the same terminal.
    pub fn print_page(&mut self, page: &[u8]) -> io::Result<()> {
        if page.is_empty() {
            return Ok(());
        }
        self.clear();
        self.out.write_all(page)?;
        if self.progress.is_some() {
            self.out.flush()?;
        }
        Ok(())
    }

    /// Writes a line to standard error after all that standard output has got.
    pub fn say_last(&mut self, line: &dyn Display) -> io::Result<()> {
        self.out.flush()?;
        self.say(line);
        Ok(())
    }

    /// Shows no progress.
    pub fn show_no_progress(&mut self) {
        self.clear();
        self.progress = None;
    }

    /// Shows no progress where the results are shown too.
    pub fn keep_progress_off_terminal(&mut self) {
        if io::stdout().is_terminal() {
            self.show_no_progress();
        }
    }

    /// Takes the progress line away.
    fn clear(&mut self) {
        if self.is_shown {
            let _ = io::stderr().write_all(b"\r\x1B[K");
            self.is_shown = false;
        }
    }
}
