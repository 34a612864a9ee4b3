//! The box's process, and the form of calls on its pipe; crates/firmware/box.c has the other end.

use std::io::{self, Read, Write};
use std::process::{Child, ChildStdin, ChildStdout, Command, Stdio};
use std::thread;

/// The box: the shipped entries in a process of their own.
pub struct TheBox {
    process: Child,
    calls: ChildStdin,
    replies: ChildStdout,
}

impl TheBox {
    /// Starts the box by the words of a command.
    pub fn start(command: &[String]) -> io::Result<Self> {
        let mut process =
            Command::new(&command[0]).args(&command[1..]).stdin(Stdio::piped()).stdout(Stdio::piped()).spawn()?;
        let calls = process.stdin.take().expect("a piped input");
        let replies = process.stdout.take().expect("a piped output");
        Ok(TheBox { process, calls, replies })
    }

    /// Hands over a batch of calls, whose replies have `length` bytes together.
    pub fn exchange(&mut self, batch: &[u8], length: usize) -> io::Result<Vec<u8>> {
        let mut answered = vec![0; length];
        let (calls, replies) = (&mut self.calls, &mut self.replies);
        thread::scope(|both| {
            let sent = both.spawn(move || calls.write_all(batch));
            replies.read_exact(&mut answered)?;
            sent.join().expect("the writer")
        })?;
        Ok(answered)
    }

    /// Ends the box: true when it has no more to say and ends well.
    pub fn end(mut self) -> io::Result<bool> {
        drop(self.calls);
        let mut more = Vec::new();
        self.replies.read_to_end(&mut more)?;
        Ok(self.process.wait()?.success() && more.is_empty())
    }
}

/// Adds the call that lends a table to the calls after it.
pub fn lend_table(table: &[u8], batch: &mut Vec<u8>) {
    batch.push(0);
    lend_bytes(table, batch);
}

/// Adds a table's or name's length and bytes.
pub fn lend_bytes(bytes: &[u8], batch: &mut Vec<u8>) {
    batch.extend((bytes.len() as u32).to_le_bytes());
    batch.extend(bytes);
}

/// Adds the count of a line's glyphs, tags or homes, and these.
pub fn lend_numbers(numbers: &[u16], batch: &mut Vec<u8>) {
    batch.extend((numbers.len() as u32).to_le_bytes());
    add_numbers(numbers, batch);
}

/// Adds a line's glyphs, tags or homes alone, as a reply has them.
pub fn add_numbers(numbers: &[u16], batch: &mut Vec<u8>) {
    batch.extend(numbers.iter().flat_map(|number| number.to_le_bytes()));
}

/// Adds the count of numbers of 64 bits, one for each line, and these.
pub fn lend_longs(numbers: &[u64], batch: &mut Vec<u8>) {
    batch.extend((numbers.len() as u32).to_le_bytes());
    batch.extend(numbers.iter().flat_map(|number| number.to_le_bytes()));
}

/// Adds the count of the features that are asked for, and these.
pub fn lend_requests(requests: &[u32], batch: &mut Vec<u8>) {
    batch.extend((requests.len() as u32).to_le_bytes());
    batch.extend(requests.iter().flat_map(|request| request.to_le_bytes()));
}
