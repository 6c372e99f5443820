//! Runs two programs on the same input: `bench` and the second program, or `verdict`, `capture`, `why` or `lawful` and the
//! second program's own.

use crate::cases::Sizes;
use crate::words;
use std::io::{Read, Write};
use std::path::PathBuf;
use std::process::{self, Command, Stdio};
use std::sync::atomic::{AtomicUsize, Ordering};
use std::sync::{mpsc, Arc};
use std::thread;
use std::time::{Duration, Instant};
use std::{env, fs};

/// All runs together get so long; a program that has not ended by then never will.
const PATIENCE: Duration = Duration::from_secs(1500);
/// More than all answers together; a program that never stops writing is cut off here.
const MOST_OUTPUT: u64 = 1 << 28;

/// Between two pieces of input that come one after the other.
const PAUSE: Duration = Duration::from_millis(1);

pub struct Programs {
    pub bench: PathBuf,
    pub second: PathBuf,
    pub verdict: PathBuf,
    pub capture: PathBuf,
    pub why: PathBuf,
    pub lawful: PathBuf,
    started: Instant,
}

/// A book in a file of its own, for programs that take its path.
pub struct BookFile(pub PathBuf);

impl BookFile {
    pub fn new(book: &[u8]) -> BookFile {
        static MADE: AtomicUsize = AtomicUsize::new(0);
        let name = format!("differential-{}-{}.book", process::id(), MADE.fetch_add(1, Ordering::Relaxed));
        let file = BookFile(env::temp_dir().join(name));
        fs::write(&file.0, book).expect("a book can be written to the folder for temporary files");
        file
    }
}

impl Drop for BookFile {
    fn drop(&mut self) {
        let _ = fs::remove_file(&self.0);
    }
}

/// What a program wrote, and how it failed if it did.
pub struct Run {
    pub output: Vec<u8>,
    pub failure: Option<String>,
}

impl Programs {
    pub fn new([bench, second, verdict, capture, why, lawful]: [PathBuf; 6]) -> Programs {
        Programs { bench, second, verdict, capture, why, lawful, started: Instant::now() }
    }

    /// As they stand on the command line.
    pub fn shown(&self) -> String {
        let Programs { bench, second, verdict, capture, why, lawful, .. } = self;
        [bench, second, verdict, capture, why, lawful].map(|program| program.display().to_string()).join(" ")
    }

    /// Both run at once; `bench` stands first.
    pub fn run(&self, pieces: Vec<Vec<u8>>) -> [Run; 2] {
        self.run_both(Command::new(&self.bench), Command::new(&self.second), pieces)
    }

    /// Both run at once; `verdict` stands first.
    pub fn run_verdicts(&self, pieces: Vec<Vec<u8>>) -> [Run; 2] {
        let mut second = Command::new(&self.second);
        second.arg("verdict");
        self.run_both(Command::new(&self.verdict), second, pieces)
    }

    /// Both run at once; `capture` stands first. What it says beside its listing is for a reader and not compared.
    pub fn run_captures(&self, pieces: Vec<Vec<u8>>, book: Option<&[u8]>) -> [Run; 2] {
        let (mut capture, mut second) = (Command::new(&self.capture), Command::new(&self.second));
        capture.stderr(Stdio::null());
        second.arg("capture");
        let file = book.map(BookFile::new);
        for program in [&mut capture, &mut second] {
            program.args(file.iter().map(|file| &file.0));
        }
        self.run_both(capture, second, pieces)
    }

    /// Both run at once; `why` stands first, with its words read back.
    pub fn run_whys(&self, pieces: Vec<Vec<u8>>, book_size: Option<usize>) -> [Run; 2] {
        let (mut why, mut second) = (Command::new(&self.why), Command::new(&self.second));
        second.arg("why");
        for program in [&mut why, &mut second] {
            program.args(book_size.map(|size| size.to_string()));
        }
        let [mut why, second] = self.run_both(why, second, pieces);
        why.output = words::read_back(&why.output);
        [why, second]
    }

    /// Both run at once; `lawful` stands first. What it says beside its verdict is for a reader and not compared.
    pub fn run_lawfuls(&self, pieces: Vec<Vec<u8>>, sizes: Sizes) -> [Run; 2] {
        let (mut lawful, mut second) = (Command::new(&self.lawful), Command::new(&self.second));
        lawful.stderr(Stdio::null());
        second.arg("lawful");
        for program in [&mut lawful, &mut second] {
            program.args(sizes.arguments());
        }
        self.run_both(lawful, second, pieces)
    }

    fn run_both(&self, core: Command, second: Command, pieces: Vec<Vec<u8>>) -> [Run; 2] {
        let pieces = Arc::new(pieces);
        thread::scope(|scope| {
            let core = scope.spawn(|| run(core, &pieces, self.time_left()));
            let second = run(second, &pieces, self.time_left());
            [core.join().expect("a run does not panic"), second]
        })
    }

    fn time_left(&self) -> Duration {
        PATIENCE.saturating_sub(self.started.elapsed())
    }
}

/// The pieces of input come one after the other.
pub fn run(mut program: Command, pieces: &Arc<Vec<Vec<u8>>>, time: Duration) -> Run {
    let failed = |output, failure| Run { output, failure: Some(failure) };
    let started = program.stdin(Stdio::piped()).stdout(Stdio::piped()).spawn();
    let mut child = match started {
        Ok(child) => child,
        Err(error) => return failed(Vec::new(), format!("cannot run {:?}: {error}", program.get_program())),
    };
    let mut to_child = child.stdin.take().expect("its input is piped");
    let from_child = child.stdout.take().expect("its output is piped");

    // Input and output go through threads of their own, so that a full pipe on one side never holds up the other.
    let pieces = Arc::clone(pieces);
    thread::spawn(move || {
        for (piece, place) in pieces.iter().zip(1..) {
            // A program that stops reading is found out by its answers and its exit status.
            let _ = to_child.write_all(piece);
            if place < pieces.len() {
                thread::sleep(PAUSE);
            }
        }
    });
    let (send, receive) = mpsc::channel();
    thread::spawn(move || {
        let mut output = Vec::new();
        let read = from_child.take(MOST_OUTPUT).read_to_end(&mut output);
        let _ = send.send((output, read));
    });

    let Ok((output, read)) = receive.recv_timeout(time) else {
        let _ = child.kill();
        let _ = child.wait();
        return failed(Vec::new(), "it did not end in time".to_string());
    };
    match (read, child.wait()) {
        (Ok(_), Ok(status)) if status.success() => Run { output, failure: None },
        (Ok(_), Ok(status)) => failed(output, format!("ended with {status}")),
        (Err(error), _) | (_, Err(error)) => failed(output, format!("cannot read its answers: {error}")),
    }
}
