//! The program under test.

use std::io::{self, Write};
use std::path::{Path, PathBuf};
use std::process::{Child, Command, Output, Stdio};
use std::time::Duration;
use std::{fs, thread};

/// The program, and the folder in which it is run.
pub struct Program {
    path: PathBuf,
    pub folder: PathBuf,
}

impl Program {
    /// Makes the folder anew.
    pub fn new(path: &Path, folder: &Path) -> io::Result<Self> {
        match fs::remove_dir_all(folder) {
            Err(error) if error.kind() != io::ErrorKind::NotFound => return Err(error),
            _ => fs::create_dir_all(folder)?,
        }
        Ok(Self { path: path.canonicalize()?, folder: folder.canonicalize()? })
    }

    /// Puts a file into the folder.
    pub fn put(&self, name: &str, bytes: &[u8]) -> io::Result<()> {
        fs::write(self.folder.join(name), bytes)
    }

    /// Runs over files of the folder by their names.
    pub fn run(&self, names: &[String]) -> io::Result<Output> {
        self.command().args(names).stdin(Stdio::null()).output()
    }

    /// What it lists of one file's bytes.
    pub fn list(&self, bytes: &[u8]) -> io::Result<Vec<u8>> {
        const NAME: &str = "one.session";
        self.put(NAME, bytes)?;
        self.run(&[NAME.into()]).and_then(quiet)
    }

    /// What it lists of bytes that come in, so many at a time.
    pub fn list_input(&self, bytes: &[u8], piece: usize) -> io::Result<Vec<u8>> {
        let mut child = self.command().stdin(Stdio::piped()).stdout(Stdio::piped()).stderr(Stdio::piped()).spawn()?;
        thread::scope(|scope| {
            let feeding = feed(&mut child, bytes, piece);
            let fed = scope.spawn(feeding);
            let output = child.wait_with_output()?;
            fed.join().expect("feeding doesn't panic")?;
            quiet(output)
        })
    }

    fn command(&self) -> Command {
        let mut command = Command::new(&self.path);
        command.current_dir(&self.folder);
        command
    }
}

/// Short pieces are handed over one by one, with time to read each.
const SHORT: usize = 16;
const TIME_TO_READ: Duration = Duration::from_micros(10);

/// Hands bytes over; a program that has met the end needn't take the rest.
fn feed<'a>(child: &mut Child, bytes: &'a [u8], piece: usize) -> impl FnOnce() -> io::Result<()> + Send + 'a {
    let mut input = child.stdin.take().expect("the input is a pipe");
    move || {
        for piece in bytes.chunks(piece) {
            match input.write_all(piece) {
                Err(error) if error.kind() == io::ErrorKind::BrokenPipe => return Ok(()),
                written => written?,
            }
            if piece.len() < SHORT {
                thread::sleep(TIME_TO_READ);
            }
        }
        Ok(())
    }
}

/// What a run wrote that ended well and complained of nothing.
pub fn quiet(output: Output) -> io::Result<Vec<u8>> {
    if output.status.success() && output.stderr.is_empty() {
        return Ok(output.stdout);
    }
    let complaint = String::from_utf8_lossy(&output.stderr);
    Err(io::Error::other(format!("the program ended with {} and wrote on standard error: {complaint}", output.status)))
}
