//! The process that makes the calls (`calls.c`), asked in batches; one that ends in the middle is started again, and the call that did it is found.
use std::io::{self, Read, Write};
use std::process::{Child, ChildStdin, ChildStdout, Command, Stdio};

/// What came back from one call: what is at fault with the lent buffers (0 for nothing), how many blocks of the code it was the first to reach, what it returned, and
/// what it wrote.
#[derive(Clone, Debug, PartialEq, Eq)]
pub struct Reply {
    pub fault: u64,
    pub fresh: u64,
    pub returned: u64,
    pub bytes: Vec<u8>,
}

/// The fault of a search's reply that is none where a search ran.
pub const QUEUE_CHANGED: u64 = 100;

/// What a fault's number means.
pub fn fault_words(fault: u64) -> String {
    const SLOTS: [&str; 16] = [
        "the job", "the text", "starts", "ends", "sizes", "features", "record numbers", "part ends", "feature ends", "part sizes", "part features", "links", "keys", "rows",
        "records", "the report",
    ];
    let buffer = if fault >= 1000 { SLOTS[(fault / 1000) as usize] } else { "the text" };
    match fault % 1000 {
        0 => "nothing".to_string(),
        1 => format!("a byte before {buffer} changed"),
        2 => format!("a byte behind {buffer} changed"),
        3 => format!("the rest of {buffer} changed"),
        4 => format!("{buffer} is longer than its room"),
        _ => "the queue changed".to_string(),
    }
}

pub struct Harness {
    command: Vec<String>,
    process: Process,
    /// whether what it writes to standard error is thrown away
    quiet: bool,
}

struct Process {
    child: Child,
    /// none once it has been told that nothing more comes
    input: Option<ChildStdin>,
    output: ChildStdout,
}

impl Process {
    fn start(command: &[String], quiet: bool) -> Process {
        let mut child = Command::new(&command[0])
            .args(&command[1..])
            .stdin(Stdio::piped())
            .stdout(Stdio::piped())
            .stderr(if quiet { Stdio::null() } else { Stdio::inherit() })
            .spawn()
            .unwrap_or_else(|error| panic!("{}: {error}", command[0]));
        let (input, output) = (child.stdin.take(), child.stdout.take().expect("a pipe"));
        Process { child, input, output }
    }

    fn word(&mut self) -> io::Result<u64> {
        let mut word = [0; 8];
        self.output.read_exact(&mut word)?;
        Ok(u64::from_le_bytes(word))
    }

    fn ask(&mut self, calls: &[Vec<u8>]) -> io::Result<Vec<Reply>> {
        let length: usize = calls.iter().map(Vec::len).sum();
        let mut batch = Vec::with_capacity(length + 16);
        batch.extend([length as u64, calls.len() as u64].iter().flat_map(|word| word.to_le_bytes()));
        calls.iter().for_each(|call| batch.extend_from_slice(call));
        self.input.as_mut().expect("still open").write_all(&batch)?;
        let mut replies = vec![0; self.word()? as usize];
        self.output.read_exact(&mut replies)?;
        Ok(parted(&replies, calls.len()))
    }
}

fn parted(mut bytes: &[u8], count: usize) -> Vec<Reply> {
    let word = |bytes: &mut &[u8]| -> u64 {
        let (front, rest) = bytes.split_at(8);
        *bytes = rest;
        u64::from_le_bytes(front.try_into().expect("eight bytes"))
    };
    let mut one = |_| {
        let (fault, fresh, returned, length) = (word(&mut bytes), word(&mut bytes), word(&mut bytes), word(&mut bytes));
        let (front, rest) = bytes.split_at(length as usize);
        bytes = rest;
        Reply { fault, fresh, returned, bytes: front.to_vec() }
    };
    (0..count).map(&mut one).collect()
}

impl Harness {
    /// A command, which the operating system finds, with its words.
    pub fn start(command: &[String]) -> Harness {
        Harness { command: command.to_vec(), process: Process::start(command, false), quiet: false }
    }

    /// The same for one that is made to fail.
    pub fn start_quietly(command: &[String]) -> Harness {
        Harness { command: command.to_vec(), process: Process::start(command, true), quiet: true }
    }

    fn start_again(&mut self) -> String {
        let words = self.end();
        self.process = Process::start(&self.command, self.quiet);
        words
    }

    /// How it ended, where nothing more comes.
    pub fn end(&mut self) -> String {
        drop(self.process.input.take());
        self.process.child.wait().map_or_else(|error| error.to_string(), |status| status.to_string())
    }

    /// The reply to each call, or how the process ended at it. A batch in which it ends is asked again call by call.
    pub fn ask(&mut self, calls: &[Vec<u8>]) -> Vec<Result<Reply, String>> {
        if let Ok(replies) = self.process.ask(calls) {
            return replies.into_iter().map(Ok).collect();
        }
        let ended = self.start_again();
        if calls.len() == 1 {
            return vec![Err(ended)];
        }
        let mut alone: Vec<_> = calls.iter().flat_map(|call| self.ask(std::slice::from_ref(call))).collect();
        if alone.iter().all(Result::is_ok) {
            alone[0] = Err(format!("{ended} in a batch of {}, and not at any call alone", calls.len()));
        }
        alone
    }

    pub fn ask_one(&mut self, call: Vec<u8>) -> Result<Reply, String> {
        self.ask(&[call]).remove(0)
    }
}

impl Drop for Harness {
    fn drop(&mut self) {
        self.end();
    }
}
