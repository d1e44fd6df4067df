//! A library in a process of its own: host/serve.c, which is sent a call with the bytes that it is lent, makes it, and
//! sends back the answer and those bytes. Each thread has a process.
use super::{Explained, Machine, Request, Seen, Wild};
use std::cell::RefCell;
use std::collections::HashMap;
use std::io::{self, Read, Write};
use std::process::{Child, ChildStdin, ChildStdout, Command, Stdio};

pub struct Served {
    command: String,
}

thread_local! {
    static PROCESSES: RefCell<HashMap<String, Process>> = RefCell::new(HashMap::new());
}

struct Process {
    child: Child,
    to: ChildStdin,
    from: ChildStdout,
}

impl Drop for Process {
    fn drop(&mut self) {
        let _ = self.child.kill();
        let _ = self.child.wait();
    }
}

impl Process {
    fn start(command: &str) -> io::Result<Self> {
        let mut words = command.split_whitespace();
        let mut child = Command::new(words.next().unwrap_or_default())
            .args(words)
            .stdin(Stdio::piped())
            .stdout(Stdio::piped())
            .spawn()?;
        let piped = "it was started with pipes";
        Ok(Self {
            to: child.stdin.take().expect(piped),
            from: child.stdout.take().expect(piped),
            child,
        })
    }

    fn call(&mut self, request: Request) -> io::Result<Seen> {
        let mut sent = vec![request.function as u8];
        sent.extend(bytes_of(&request.machine));
        for number in request.numbers {
            sent.extend(number.to_le_bytes());
        }
        sent.extend(request.viewers.iter().flat_map(|marks| marks.to_le_bytes()));
        sent.push(request.lent.len() as u8);
        for lent in &request.lent {
            let bytes = lent.as_deref().unwrap_or_default();
            sent.push(u8::from(lent.is_some()));
            sent.extend((bytes.len() as u64).to_le_bytes());
            sent.extend(bytes);
        }
        self.to.write_all(&sent)?;
        let mut answer = [0; 70];
        self.from.read_exact(&mut answer)?;
        for bytes in request.lent.into_iter().flatten() {
            self.from.read_exact(bytes)?;
        }
        let number = |at: usize| {
            let mut bytes = [0; 8];
            bytes.copy_from_slice(&answer[at..at + 8]);
            u64::from_le_bytes(bytes)
        };
        let marks = |viewer: usize| {
            let mut bytes = [0; 4];
            bytes.copy_from_slice(&answer[38 + 4 * viewer..][..4]);
            u32::from_le_bytes(bytes)
        };
        let place = |at: usize| u16::from_le_bytes([answer[at], answer[at + 1]]);
        Ok(Seen {
            refusal: answer[0],
            value: number(1),
            length: number(9),
            machine: machine_of(&answer[17..28]),
            wild: Wild {
                there: answer[28],
                row: answer[29],
            },
            explained: Explained {
                answer: answer[30],
                place: place(31),
                kind: answer[33],
                tore: answer[34],
                linked: answer[35],
                link: place(36),
            },
            viewers: std::array::from_fn(marks),
        })
    }
}

fn bytes_of(machine: &Machine) -> [u8; 11] {
    let m = machine;
    [
        m.columns132,
        m.hertz50,
        m.interlace,
        m.latch,
        m.blink,
        m.interrupt,
        m.reverse,
        m.watchdog,
        m.count,
        m.reset,
        m.held,
    ]
}

fn machine_of(bytes: &[u8]) -> Machine {
    Machine {
        columns132: bytes[0],
        hertz50: bytes[1],
        interlace: bytes[2],
        latch: bytes[3],
        blink: bytes[4],
        interrupt: bytes[5],
        reverse: bytes[6],
        watchdog: bytes[7],
        count: bytes[8],
        reset: bytes[9],
        held: bytes[10],
    }
}

impl Served {
    pub fn by(command: &str) -> Self {
        Self {
            command: command.to_string(),
        }
    }

    pub fn call(&self, request: Request) -> Result<Seen, String> {
        let why = |error: io::Error| format!("{}: {error}", self.command);
        PROCESSES.with(|processes| {
            let mut processes = processes.borrow_mut();
            if !processes.contains_key(&self.command) {
                let process = Process::start(&self.command).map_err(why)?;
                processes.insert(self.command.clone(), process);
            }
            let process = processes.get_mut(&self.command).expect("it was put there");
            let seen = process.call(request).map_err(why);
            if seen.is_err() {
                processes.remove(&self.command);
            }
            seen
        })
    }
}
