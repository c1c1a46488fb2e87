//! A host that files the messages of several clients into one store.
//!
//! The arguments are the capacity of the store in bytes and the reserves of the clients from 0 on. Each line of standard
//! input is a request: `file CLIENT NUMBER TEXT`, `release CLIENT NUMBER` or `used CLIENT`. The store keeps the account;
//! the host keeps the formatted texts, and gives a text back when it is released.
//!
//! ```console
//! $ printf 'file 0 7 \342\235\244\nused 0\nfile 1 0 a dozen byte\nfile 1 1 a\nrelease 1 0\nrelease 1 0\n' | filing 20 8 4
//! filed 6 bytes
//! 6 bytes used
//! filed 12 bytes
//! refused 14: the store has no room for it: 0 bytes would fit
//! released 12 bytes: a dozen byte
//! refused 13: the client or the number is out of range, or the number is in use, or not in use
//! $ printf 'file 0\n' | filing 20
//! not a request: file 0
//! $ filing 10 8 4; echo "status $?"
//! refused 14: the store has no room for it: 10 bytes would fit
//! status 2
//! ```

use std::collections::HashMap;
use std::env;
use std::error::Error;
use std::io::{self, BufRead, Write};
use std::process::ExitCode;

use tilghorz::{Policy, Refusal, Store};

/// A store, with the formatted texts that are filed in it.
struct Archive {
    store: Store,
    policy: Policy,
    texts: HashMap<(u64, u64), Vec<u8>>,
}

fn main() -> Result<ExitCode, Box<dyn Error>> {
    let numbers = env::args().skip(1).map(|word| word.parse());
    let numbers = numbers.collect::<Result<Vec<u64>, _>>()?;
    let (capacity, reserves) = numbers
        .split_first()
        .ok_or("usage: filing CAPACITY RESERVE...")?;
    let store = match Store::new(*capacity, reserves) {
        Ok(store) => store,
        Err(refusal) => {
            eprintln!("{}", told(refusal));
            return Ok(ExitCode::from(2));
        }
    };
    let mut archive = Archive {
        store,
        policy: Policy::default(),
        texts: HashMap::new(),
    };
    let mut out = io::stdout().lock();
    for line in io::stdin().lock().split(b'\n') {
        let line = line?;
        match archive.answer(&line) {
            Some(answer) => writeln!(out, "{}", answer.unwrap_or_else(told))?,
            None => writeln!(out, "not a request: {}", String::from_utf8_lossy(&line))?,
        }
    }
    Ok(ExitCode::SUCCESS)
}

impl Archive {
    /// What a request is answered, if it is one.
    fn answer(&mut self, line: &[u8]) -> Option<Result<String, Refusal>> {
        let mut words = line.splitn(4, |byte| *byte == b' ');
        let request = words.next()?;
        let client = number(words.next()?)?;
        if request == b"used" {
            return Some(self.used(client));
        }
        let place = (client, number(words.next()?)?);
        match request {
            b"file" => Some(self.file(words.next()?, place)),
            b"release" => Some(self.release(place)),
            _ => None,
        }
    }

    fn used(&self, client: u64) -> Result<String, Refusal> {
        Ok(format!("{} bytes used", self.store.used(client)?))
    }

    /// Files a message. The store is charged only if it is accepted.
    fn file(&mut self, text: &[u8], (client, number): (u64, u64)) -> Result<String, Refusal> {
        let filed = self.store.file(text, &self.policy, client, number)?;
        let told = format!("filed {} bytes", filed.len());
        self.texts.insert((client, number), filed.into_owned());
        Ok(told)
    }

    fn release(&mut self, (client, number): (u64, u64)) -> Result<String, Refusal> {
        let bytes = self.store.release(client, number)?;
        let text = self.texts.remove(&(client, number)).unwrap_or_default();
        let text = String::from_utf8_lossy(&text);
        Ok(format!("released {bytes} bytes: {text}"))
    }
}

/// A number in digits.
fn number(word: &[u8]) -> Option<u64> {
    str::from_utf8(word).ok()?.parse().ok()
}

/// A refusal in words.
fn told(refusal: Refusal) -> String {
    format!("refused {}: {refusal}", refusal.number())
}
