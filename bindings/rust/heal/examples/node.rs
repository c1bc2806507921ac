//! A node of a half: `node FOLDER NUMBER`. It keeps a log in the folder, and obeys the requests that `bindings/c/node.c` describes.
//!
//! It may be killed at any moment: what it answered with 0 is in its log. Only one process at a time may use the folder.
use heal::{log_front, Life, LogFront, Owner, Refusal, Refused, Registration, Replica};
use std::error::Error;
use std::fs::{self, File};
use std::io::{self, Read, Write};

/// The answer to a lookup of a name that nobody has.
const NO_SUCH_NAME: u32 = Refusal::NoSuchName as u32;

/// Replaces a file: after a crash it has its old bytes or these.
fn replace(name: &str, bytes: &[u8]) -> io::Result<File> {
    let mut file = File::create("new")?;
    file.write_all(bytes)?;
    file.sync_all()?;
    fs::rename("new", name)?;
    File::open(".")?.sync_all()?;
    Ok(file)
}

/// Returns the bytes of a file, or `None` if there is none. A file that exists and can't be read is an error.
fn read_all(name: &str) -> io::Result<Option<Vec<u8>>> {
    match fs::read(name) {
        Err(error) if error.kind() == io::ErrorKind::NotFound => Ok(None),
        read => read.map(Some),
    }
}

/// Stores the next incarnation, and returns it.
fn next_incarnation() -> Result<u64, Box<dyn Error>> {
    let number = match read_all("incarnation")? {
        Some(last) => String::from_utf8(last)?.parse::<u64>()? + 1,
        None => 1,
    };
    replace("incarnation", number.to_string().as_bytes())?;
    Ok(number)
}

/// Follows the snapshot of a log and applies its entries, up to the last whole one.
fn read_log(replica: &mut Replica, mut log: &[u8]) -> Result<(), Refused> {
    loop {
        let size = match log_front(log)? {
            LogFront::Snapshot(size) => replica.follow(&log[..size]).map(|()| size)?,
            LogFront::Entry(size) => replica.apply(&log[..size]).map(|()| size)?,
            LogFront::End | LogFront::Cut => return Ok(()),
        };
        log = &log[size..];
    }
}

/// A replica with its log.
struct Node {
    replica: Replica,
    log: File,
}

impl Node {
    /// Starts a new life with what the log has.
    fn restart(node: u32) -> Result<Node, Box<dyn Error>> {
        let incarnation = next_incarnation()?;
        let mut replica = Replica::start(Life { node, incarnation })?;
        read_log(&mut replica, &read_all("log")?.unwrap_or_default())?;
        replica.lead()?;
        let log = replace("log", &replica.snapshot()?)?;
        Ok(Node { replica, log })
    }

    fn append(&mut self, entry: &[u8]) -> io::Result<()> {
        self.log.write_all(entry)?;
        self.log.sync_data()
    }

    fn start_log(&mut self) -> Result<Vec<u8>, Box<dyn Error>> {
        // Without its snapshot the new view has no log, so a refusal ends the node.
        let snapshot = self.replica.snapshot().map_err(|refused| refused.to_string())?;
        self.log = replace("log", &snapshot)?;
        Ok(snapshot)
    }

    /// Carries a request out, and returns the number and the bytes of the answer.
    fn obey(&mut self, request: u8, body: &[u8]) -> Result<(u32, Vec<u8>), Box<dyn Error>> {
        match request {
            b'R' | b'U' => {
                let entry = match request {
                    b'R' => self
                        .replica
                        .register(body, Registration::new(Owner::new(1, 1), 0))?,
                    _ => self.replica.unregister(body)?,
                };
                self.append(&entry)?;
                return Ok((0, entry));
            }
            b'A' => {
                self.replica.apply(body)?;
                self.append(body)?;
            }
            b'F' => {
                self.replica.follow(body)?;
                self.start_log()?;
            }
            b'L' => {
                self.replica.lead()?;
                return Ok((0, self.start_log()?));
            }
            _ if self.replica.whereis(body)?.is_none() => return Ok((NO_SUCH_NAME, Vec::new())),
            _ => {}
        }
        Ok((0, Vec::new()))
    }
}

/// Reads a request, or `None` at the end of the input.
fn next_request(input: &mut impl Read) -> Option<(u8, Vec<u8>)> {
    let (mut request, mut size) = ([0], [0; 8]);
    input.read_exact(&mut request).ok()?;
    input.read_exact(&mut size).ok()?;
    let mut body = vec![0; u64::from_ne_bytes(size) as usize];
    input.read_exact(&mut body).ok()?;
    Some((request[0], body))
}

fn main() -> Result<(), Box<dyn Error>> {
    let words: Vec<String> = std::env::args().skip(1).collect();
    let (folder, number) = match words.as_slice() {
        [folder, number] => (folder, number),
        _ => return Err("usage: node FOLDER NUMBER".into()),
    };
    std::env::set_current_dir(folder)?;
    let mut node = Node::restart(number.parse()?)?;
    let (mut input, mut output) = (io::stdin().lock(), io::stdout().lock());
    while let Some((request, body)) = next_request(&mut input) {
        let (number, answer) = match node.obey(request, &body) {
            Ok(answered) => answered,
            Err(error) => match error.downcast::<Refused>() {
                Ok(refused) => (refused.number, Vec::new()),
                Err(error) => return Err(error),
            },
        };
        output.write_all(&number.to_ne_bytes())?;
        output.write_all(&(answer.len() as u64).to_ne_bytes())?;
        output.write_all(&answer)?;
        output.flush()?;
    }
    Ok(())
}
