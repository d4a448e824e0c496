//! The program `ask`: spawned, fed and heard through pipes.

use plain::protocol::{Reply, Request, BROKEN};
use std::io::{self, BufReader, BufWriter, Write};
use std::process::{Child, Command, Stdio};
use std::sync::mpsc::{channel, Receiver, RecvTimeoutError, Sender};
use std::thread;
use std::time::Duration;

/// How long an answer may take; the first one waits until the program is built.
const PATIENCE: Duration = Duration::from_secs(900);

/// A running `ask`. Requests are written by one thread and answers read by
/// another, so that neither side of the pipe waits for the other.
pub struct Ask {
    child: Child,
    requests: Sender<Vec<Request>>,
    replies: Receiver<Reply>,
}

impl Ask {
    /// Starts a shell command as `ask`.
    pub fn start(command: &str) -> io::Result<Ask> {
        let mut child = Command::new("sh")
            .args(["-c", &format!("exec {command}")])
            .stdin(Stdio::piped())
            .stdout(Stdio::piped())
            .spawn()?;
        let mut stdin = BufWriter::with_capacity(1 << 16, child.stdin.take().expect("piped"));
        let mut stdout = BufReader::with_capacity(1 << 16, child.stdout.take().expect("piped"));
        let (requests, to_write) = channel::<Vec<Request>>();
        let (read, replies) = channel();
        // Both threads end with the pipe: a broken one is seen as silence.
        thread::spawn(move || {
            for batch in to_write {
                let written = batch
                    .iter()
                    .try_for_each(|request| stdin.write_all(&request.encode()));
                if written.and_then(|()| stdin.flush()).is_err() {
                    break;
                }
            }
        });
        thread::spawn(move || {
            while let Ok(Some(reply)) = Reply::decode(&mut stdout) {
                if read.send(reply).is_err() {
                    break;
                }
            }
        });
        Ok(Ask {
            child,
            requests,
            replies,
        })
    }

    /// Sends requests; their answers come in order.
    pub fn send(&self, requests: Vec<Request>) {
        // A program that has ended is noticed when its answer is missed.
        let _ = self.requests.send(requests);
    }

    /// The next answer, or why there is none.
    pub fn receive(&self) -> Result<Reply, String> {
        self.replies
            .recv_timeout(PATIENCE)
            .map_err(|error| match error {
                RecvTimeoutError::Timeout => format!("no answer within {} s", PATIENCE.as_secs()),
                RecvTimeoutError::Disconnected => "the program ended without an answer".into(),
            })
    }
}

impl Drop for Ask {
    fn drop(&mut self) {
        // The program may have ended by itself; either way it is waited for.
        let _ = self.child.kill();
        let _ = self.child.wait();
    }
}

/// Which of some calls a program answers: one that it does not know gets 255 or
/// none, and then it is started anew.
pub fn answered(command: &str, calls: &[u8]) -> io::Result<Vec<u8>> {
    let mut answered = Vec::new();
    let mut ask = Ask::start(command)?;
    for &call in calls {
        ask.send(vec![Request {
            call,
            other: 1,
            ..Request::default()
        }]);
        match ask.receive() {
            Ok(reply) if reply.number != BROKEN => answered.push(call),
            _ => ask = Ask::start(command)?,
        }
    }
    Ok(answered)
}
