//! A port: a program that answers the oracle's protocol, asked one request at a time. Where it ends or is silent it is started anew.

use crate::frames;
use std::io::{BufReader, Read};
use std::process::{Child, Command, Stdio};
use std::sync::mpsc::{channel, sync_channel, Receiver, Sender};
use std::time::{Duration, Instant};

/// How long an answer is waited for: the first time, and once the port was silent. How many times it may be silent before it isn't asked
/// any more.
const PATIENCE: Duration = Duration::from_secs(5);
const IMPATIENCE: Duration = Duration::from_millis(500);
const MOST_SILENCES: u32 = 100;

/// How many answers are kept before they are asked for.
const MOST_KEPT: usize = 256;

/// Starts a command with pipes for its input and output.
pub fn start(command: &[String], says: Stdio) -> Result<Child, String> {
    let (name, words) = command.split_first().ok_or("no command is named")?;
    let started = Command::new(name).args(words).stdin(Stdio::piped()).stdout(Stdio::piped()).stderr(says).spawn();
    started.map_err(|err| format!("cannot start {name}: {err}"))
}

/// The answers that a port gives, as they come; they end with its output. So many are kept that no one has asked for.
pub fn answers(output: impl Read + Send + 'static) -> Receiver<Vec<u8>> {
    let (answered, answers) = sync_channel(MOST_KEPT);
    std::thread::spawn(move || {
        let mut output = BufReader::new(output);
        while let Ok(Some(answer)) = frames::read(&mut output) {
            if answered.send(answer).is_err() {
                break;
            }
        }
    });
    answers
}

struct Running {
    child: Child,
    requests: Sender<Vec<u8>>,
    answers: Receiver<Vec<u8>>,
}

impl Running {
    fn start(command: &[String]) -> Option<Self> {
        let mut child = start(command, Stdio::null()).ok()?;
        let (mut input, output) = (child.stdin.take()?, child.stdout.take()?);
        let (requests, asked) = channel::<Vec<u8>>();
        // It ends with the port's pipe.
        std::thread::spawn(move || asked.iter().try_for_each(|request| frames::write(&mut input, &request)));
        Some(Self { child, requests, answers: answers(output) })
    }
}

impl Drop for Running {
    fn drop(&mut self) {
        let _ = self.child.kill();
        let _ = self.child.wait();
    }
}

pub struct Port {
    command: Vec<String>,
    running: Option<Running>,
    silences: u32,
}

impl Port {
    pub fn new(command: &[String]) -> Self {
        Self { command: command.to_vec(), running: None, silences: 0 }
    }

    /// Whether the port was silent so often that it shouldn't be asked again.
    pub fn is_lost(&self) -> bool {
        self.silences >= MOST_SILENCES
    }

    /// The answer to a request; none where the port ends or is silent.
    pub fn ask(&mut self, request: &[u8]) -> Option<Vec<u8>> {
        if self.running.is_none() {
            self.running = Running::start(&self.command);
        }
        let running = self.running.as_ref()?;
        let sent = running.requests.send(request.to_vec());
        let patience = if self.silences == 0 { PATIENCE } else { IMPATIENCE };
        let asked_at = Instant::now();
        let answer = sent.ok().and_then(|()| running.answers.recv_timeout(patience).ok());
        if answer.is_none() {
            self.running = None;
            self.silences += u32::from(asked_at.elapsed() >= patience);
        }
        answer
    }
}
