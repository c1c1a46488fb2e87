//! A host that formats a queue of messages. Each line of standard input is a message.
//!
//! Two workers share the policy. Each has one buffer, which it uses for all its messages. The formatted messages are written
//! in the order of the queue. A message that is refused is told on standard error, and an empty line stands for it.
//!
//! ```console
//! $ printf '1\357\270\216 and \342\235\244\nplain\ncut off: \342\235\nlast\n' | queue | od -An -tx1
//! message 3: refused 3: not well-formed UTF-8 at byte 9
//!  31 20 61 6e 64 20 e2 9d a4 ef b8 8e 0a 70 6c 61
//!  69 6e 0a 0a 6c 61 73 74 0a
//! $ printf 'a\nb\nc\n' | queue
//! a
//! b
//! c
//! ```

use std::collections::BTreeMap;
use std::io::{self, BufRead, Write};
use std::sync::mpsc::{self, Receiver, Sender};
use std::sync::{Arc, Mutex, PoisonError};
use std::thread;

use tilghorz::{Policy, Refusal};

/// How many threads format.
const WORKERS: usize = 2;
/// How many messages wait for a worker at most.
const WAITING: usize = 64;

/// A message, with its place in the queue.
type Message = (usize, Vec<u8>);
/// The formatted message or the refusal, with the place in the queue.
type Answer = (usize, Result<Vec<u8>, Refusal>);

fn main() -> io::Result<()> {
    let policy = Policy::default();
    let (send, queue) = mpsc::sync_channel::<Message>(WAITING);
    let (answers, received) = mpsc::channel::<Answer>();
    let queue = Arc::new(Mutex::new(queue));
    thread::scope(|scope| {
        let policy = &policy;
        for _ in 0..WORKERS {
            let (queue, answers) = (Arc::clone(&queue), answers.clone());
            scope.spawn(move || work(&queue, policy, &answers));
        }
        // Only the workers have these, so the queue and the answers end with the last worker.
        drop((queue, answers));
        let writer = scope.spawn(|| write_in_order(received));
        for (place, line) in io::stdin().lock().split(b'\n').enumerate() {
            if send.send((place, line?)).is_err() {
                break;
            }
        }
        drop(send);
        writer
            .join()
            .unwrap_or_else(|panic| std::panic::resume_unwind(panic))
    })
}

/// Formats messages until the queue ends.
fn work(queue: &Mutex<Receiver<Message>>, policy: &Policy, answers: &Sender<Answer>) {
    let mut buffer = Vec::new();
    loop {
        // The lock is held while this worker waits for a message, and not while it formats one.
        let next = queue.lock().unwrap_or_else(PoisonError::into_inner).recv();
        let Ok((place, message)) = next else {
            return;
        };
        // Four times the length is always enough room.
        buffer.resize(buffer.len().max(4 * message.len()), 0);
        let formatted = tilghorz::format_into(&message, policy, &mut buffer);
        let filed = formatted.map(|done| tilghorz::filed(&message, &buffer, done).to_vec());
        if answers.send((place, filed)).is_err() {
            return;
        }
    }
}

/// Writes the answers in the order of the queue. One that comes early waits for those before it.
fn write_in_order(answers: Receiver<Answer>) -> io::Result<()> {
    let (mut early, mut next, mut out) = (BTreeMap::new(), 0, io::stdout().lock());
    for (place, answer) in answers {
        early.insert(place, answer);
        while let Some(answer) = early.remove(&next) {
            next += 1;
            let message = answer.unwrap_or_else(|refusal| {
                eprintln!("message {next}: refused {}: {refusal}", refusal.number());
                Vec::new()
            });
            out.write_all(&message)?;
            out.write_all(b"\n")?;
        }
    }
    out.flush()
}
