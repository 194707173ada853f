// Sends cases to the serving program and holds each response to what is expected, octet for octet.

use std::io::{BufReader, BufWriter, Read, Write};
use std::process::{Child, ChildStdin, ChildStdout, Command, Stdio};
use std::sync::mpsc::{sync_channel, Receiver, SyncSender};
use std::thread::{spawn, JoinHandle};

use crate::case::{flush, Case, RECORD, RESPONSE};

// How many cases go out before the serving program is told to write out its responses.
const AT_ONCE: usize = 256;

// A case and the seed of the round that it belongs to.
type Pending = (u64, Case);

// Why comparing stopped before the last case.
enum Stop {
    Different(String),
    NoResponse(String),
}

pub struct Exchange {
    server: Child,
    to: Option<BufWriter<ChildStdin>>,
    pending: Option<SyncSender<Pending>>,
    comparing: Option<JoinHandle<Result<(), Stop>>>,
    sent: usize,
}

impl Exchange {
    pub fn start(words: &[String]) -> Exchange {
        let mut server = Command::new(&words[0])
            .args(&words[1..])
            .stdin(Stdio::piped())
            .stdout(Stdio::piped())
            .spawn()
            .expect("the serving program starts");
        let to = BufWriter::with_capacity(1 << 20, server.stdin.take().unwrap());
        let from = BufReader::with_capacity(1 << 20, server.stdout.take().unwrap());
        let (pending, waiting) = sync_channel(4 * AT_ONCE);
        let comparing = spawn(move || compare(from, waiting));
        Exchange { server, to: Some(to), pending: Some(pending), comparing: Some(comparing), sent: 0 }
    }

    // False once a response was not as expected.
    pub fn send(&mut self, seed: u64, case: Case) -> bool {
        let to = self.to.as_mut().unwrap();
        let mut written = to.write_all(&case.request);
        self.sent += 1;
        if self.sent % AT_ONCE == 0 {
            written = written.and_then(|()| to.write_all(&flush())).and_then(|()| to.flush());
        }
        written.is_ok() && self.pending.as_ref().unwrap().send((seed, case)).is_ok()
    }

    // The first difference, if there was one.
    pub fn end(mut self) -> Result<(), String> {
        drop(self.to.take());
        drop(self.pending.take());
        let compared = self.comparing.take().unwrap().join().expect("the comparing thread ends");
        let ended = self.server.wait().expect("the serving program ends");
        match compared {
            Err(Stop::Different(said)) => Err(said),
            Err(Stop::NoResponse(said)) => Err(format!("{}: {}", said, ended)),
            Ok(()) if ended.success() => Ok(()),
            Ok(()) => Err(format!("the serving program ended with {}", ended)),
        }
    }
}

fn compare(mut from: BufReader<ChildStdout>, waiting: Receiver<Pending>) -> Result<(), Stop> {
    let mut given = Vec::new();
    for (seed, case) in waiting {
        given.resize(case.expected.len(), 0);
        if from.read_exact(&mut given).is_err() {
            let said = format!("seed {}: the serving program ended at a case of {}, or soon after it", seed, case.what);
            return Err(Stop::NoResponse(said));
        }
        if given != case.expected {
            return Err(Stop::Different(difference(seed, &case, &given)));
        }
    }
    Ok(())
}

fn hex(octets: &[u8]) -> String {
    octets.iter().map(|o| format!("{:02x}", o)).collect()
}

fn difference(seed: u64, case: &Case, given: &[u8]) -> String {
    let place = (0..given.len()).find(|&i| given[i] != case.expected[i]).unwrap();
    let from = place / 16 * 16;
    let to = (from + 16).min(given.len());
    let whereabouts = match place {
        0 => "the number".to_string(),
        1 => "the guard octets".to_string(),
        p if RECORD.contains(&p) => "the record".to_string(),
        p if p < RESPONSE => "the values".to_string(),
        p => format!("octet {} of the buffers", p - RESPONSE),
    };
    format!(
        "seed {}: {} differs in {}\n expected {}\n given    {}\n request  {}{}",
        seed,
        case.what,
        whereabouts,
        hex(&case.expected[from..to]),
        hex(&given[from..to]),
        hex(&case.request[..case.request.len().min(256)]),
        if case.request.len() > 256 { " .." } else { "" }
    )
}
