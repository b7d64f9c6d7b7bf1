//! The archive as a bench: tests/serve.c makes the calls, on the other side of a pipe.

use spokeshaver_reference::generate::{Bench, Call, Case, Outcome};
use std::io::{BufReader, Read, Result, Write};
use std::process::{Child, ChildStdin, ChildStdout, Command, Stdio};

/// A running server. It ends with the pipe to it.
pub struct Server {
    child: Child,
    requests: Option<ChildStdin>,
    replies: BufReader<ChildStdout>,
    /// What the last call touched though it must not: 0 for nothing, else a buffer's number.
    pub touched: u64,
}

/// Which call, its plain arguments, and the kernel or word that it is lent.
struct Request<'a>(u64, [u64; 5], &'a [u8]);

fn request(call: &Call) -> Request<'_> {
    match call {
        Call::Check { kernel } => Request(0, [0; 5], kernel),
        Call::Pack { kernel, .. } => Request(1, [0; 5], kernel),
        Call::Unpack { kernel, .. } => Request(2, [0; 5], kernel),
        Call::Shorten { word, .. } => Request(3, [0; 5], word),
        Call::Expand { word, .. } => Request(4, [0; 5], word),
        Call::Decode { kernel, place } => Request(5, [*place, 0, 0, 0, 0], kernel),
        Call::Start { mask, flag0, flag1, .. } => {
            Request(6, [*mask, *flag0, *flag1, 0, 0].map(u64::from), &[])
        }
        Call::Step { kernel, .. } => Request(7, [0; 5], kernel),
        Call::Run { kernel, budget, .. } => Request(8, [*budget, 0, 0, 0, 0], kernel),
        // The sent kernel goes where outputs go, so that it is seen to stay as it is.
        Call::Pair { long, .. } => Request(9, [0; 5], long),
        // So does a log.
        Call::LogAppend { count, values: [verdict, steps, place, awake], .. } => {
            Request(10, [*count, *verdict, *steps, *place, *awake], &[])
        }
        Call::LogRead { count, .. } => Request(11, [*count, 0, 0, 0, 0], &[]),
        Call::LogRuns { count, .. } => Request(12, [*count, 0, 0, 0, 0], &[]),
        Call::LogRun { count, answer, .. } => Request(13, [*count, *answer, 0, 0, 0], &[]),
        Call::Forward { kernel } => Request(14, [0; 5], kernel),
        Call::List { kernel, .. } => Request(15, [0; 5], kernel),
        Call::Read { text, .. } => Request(16, [0; 5], text),
        Call::Place { order, record, x, y, .. } => {
            Request(17, [*order, *x as u64, *y as u64, 0, 0], record)
        }
        Call::PlaceKernel { .. } => Request(18, [0; 5], &[]),
        Call::PlaceLoad { record, .. } => Request(19, [0; 5], record),
    }
}

impl Server {
    /// Starts the server by its command line.
    pub fn start(command: &[String]) -> Result<Server> {
        let mut child = Command::new(&command[0])
            .args(&command[1..])
            .stdin(Stdio::piped())
            .stdout(Stdio::piped())
            .spawn()?;
        let requests = child.stdin.take();
        let replies = BufReader::with_capacity(1 << 16, child.stdout.take().expect("piped"));
        Ok(Server { child, requests, replies, touched: 0 })
    }

    fn exchange(&mut self, case: &Case, lent: &mut Outcome) -> Result<u64> {
        let Request(call, arguments, kernel) = request(&case.call);
        // Output and registers share a buffer: no call takes both.
        let out = if lent.out.is_empty() { &mut lent.registers } else { &mut lent.out };
        let buffers: [&[u8]; 4] = [&case.dictionary, kernel, out, &lent.state];
        let lengths = buffers.map(|buffer| buffer.len() as u64);
        let mut message = Vec::new();
        for number in [call].iter().chain(&arguments).chain(&lengths) {
            message.extend(number.to_ne_bytes());
        }
        for buffer in buffers {
            message.extend(buffer);
        }
        let requests = self.requests.as_mut().expect("open until the end");
        requests.write_all(&message)?;
        let answer = self.number()?;
        self.touched = self.number()?;
        self.replies.read_exact(out)?;
        self.replies.read_exact(&mut lent.state)?;
        Ok(answer)
    }

    fn number(&mut self) -> Result<u64> {
        let mut bytes = [0; 8];
        self.replies.read_exact(&mut bytes)?;
        Ok(u64::from_ne_bytes(bytes))
    }

    /// Closes the pipe and waits. True if the server ended well.
    pub fn finish(mut self) -> Result<bool> {
        drop(self.requests.take());
        Ok(self.child.wait()?.success())
    }
}

impl Bench for Server {
    fn call(&mut self, case: &Case, lent: &mut Outcome) -> u64 {
        match self.exchange(case, lent) {
            Ok(answer) => answer,
            Err(error) => {
                let name = case.call.name();
                eprintln!("case {}: {name}: the server is gone: {error}", case.seed);
                std::process::exit(1)
            }
        }
    }
}
