//! A served cluster, and consoles of it.
use std::fs;
use std::io::{BufRead, BufReader, Error, ErrorKind, Read, Result, Write};
use std::net::{TcpListener, TcpStream};
use std::process::{Child, Command, Stdio};
use std::thread;

/// The names of nodes.
pub const NODES: [&str; 8] = ["a", "b", "c", "d", "e", "f", "g", "h"];

/// A cluster that a process of its own serves.
pub struct Served {
    child: Child,
    output: BufReader<std::process::ChildStdout>,
    address: String,
}

impl Served {
    /// Serves a cluster of so many nodes to so many consoles.
    pub fn start(program: &str, nodes: usize, consoles: usize) -> Result<Served> {
        // A port that is free now, and likely still is when it is listened on.
        let address = TcpListener::bind("127.0.0.1:0")?.local_addr()?.to_string();
        let mut child = Command::new(program)
            .args(["serve", "--listen", &address, "--nodes", &NODES[..nodes].join(",")])
            .args(["--consoles", &consoles.to_string()])
            .stdout(Stdio::piped())
            .spawn()?;
        let mut output = BufReader::new(child.stdout.take().expect("a pipe"));
        let mut line = String::new();
        output.read_line(&mut line)?;
        if line != format!("listening {address}\n") {
            return Err(Error::new(ErrorKind::Other, format!("it printed {line:?}")));
        }
        Ok(Served { child, output, address })
    }

    /// The CPU time that it took so far.
    pub fn cpu_seconds(&self) -> Result<f64> {
        let stat = fs::read_to_string(format!("/proc/{}/stat", self.child.id()))?;
        let fields: Vec<&str> = stat.rsplit(')').next().unwrap_or("").split_whitespace().collect();
        let ticks: f64 = fields[11].parse::<f64>().unwrap_or(0.0) + fields[12].parse::<f64>().unwrap_or(0.0);
        Ok(ticks / 100.0)
    }

    /// How many megabytes of memory it has.
    pub fn megabytes(&self) -> Result<f64> {
        let statm = fs::read_to_string(format!("/proc/{}/statm", self.child.id()))?;
        let pages: f64 = statm.split_whitespace().nth(1).and_then(|word| word.parse().ok()).unwrap_or(0.0);
        Ok(pages * 4096.0 / 1e6)
    }

    /// Waits until it has closed, as it must: how many events its run had.
    pub fn finish(mut self) -> Result<u64> {
        let mut line = String::new();
        self.output.read_to_string(&mut line)?;
        let status = self.child.wait()?;
        let events = line.strip_prefix("closed ").and_then(|rest| rest.trim_end().parse().ok());
        match events {
            Some(events) if status.success() => Ok(events),
            _ => Err(Error::new(ErrorKind::Other, format!("it ended with {line:?}"))),
        }
    }
}

/// That a line had the answer that it is to have.
fn check(line: &str, answer: &str, wanted: &str) -> Result<()> {
    if answer == wanted {
        Ok(())
    } else {
        Err(Error::new(ErrorKind::Other, format!("{line:?} was answered {answer:?}")))
    }
}

/// A console of a cluster.
pub struct Console {
    reader: BufReader<TcpStream>,
    writer: TcpStream,
}

impl Console {
    /// A console at a node.
    pub fn attach(served: &Served, node: &str) -> Result<Console> {
        let writer = TcpStream::connect(&served.address)?;
        writer.set_nodelay(true)?;
        let reader = BufReader::new(writer.try_clone()?);
        let mut console = Console { reader, writer };
        console.expect(&format!("attach {node}"), "ok")?;
        Ok(console)
    }

    /// Sends a line, whose answer is read later.
    pub fn send(&mut self, line: &str) -> Result<()> {
        self.writer.write_all(format!("{line}\n").as_bytes())
    }

    /// The next answer.
    fn answer(&mut self) -> Result<String> {
        let mut answer = String::new();
        self.reader.read_line(&mut answer)?;
        answer.truncate(answer.trim_end().len());
        Ok(answer)
    }

    /// The answer of a line.
    pub fn ask(&mut self, line: &str) -> Result<String> {
        self.send(line)?;
        self.answer()
    }

    /// Reads an answer that is to be this one.
    pub fn hear(&mut self, wanted: &str) -> Result<()> {
        check("a line that was sent before", &self.answer()?, wanted)
    }

    /// Asks a line that is to have this answer.
    pub fn expect(&mut self, line: &str, wanted: &str) -> Result<()> {
        let answer = self.ask(line)?;
        check(line, &answer, wanted)
    }

    /// Sends all lines ahead of the first answer, each so many times and in turn, and reads the answers that they are to have.
    pub fn expect_all(&mut self, lines: &[(String, &str)], times: u32) -> Result<()> {
        let once: String = lines.iter().map(|(line, _)| format!("{line}\n")).collect();
        let text = once.repeat(times as usize);
        let mut writer = self.writer.try_clone()?;
        // Answers are read meanwhile, since no socket has room for all that is sent.
        let sender = thread::spawn(move || writer.write_all(text.as_bytes()));
        let mut answer = String::new();
        for (line, wanted) in (0..times).flat_map(|_| lines) {
            answer.clear();
            self.reader.read_line(&mut answer)?;
            check(line, answer.trim_end(), wanted)?;
        }
        sender.join().expect("the sender panicked")
    }

    /// Ends it.
    pub fn quit(mut self) -> Result<()> {
        self.expect("quit", "ok")
    }
}
