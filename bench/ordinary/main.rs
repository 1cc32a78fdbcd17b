//! Plays scripts of docs/SCRIPT.md by the rules of docs/PROTOCOL.md: the other side of the measure, in ordinary Rust.
//!
//! It has no code in common with the verified program, and prints the same bytes for the same standard input.

mod letters;
mod lines;
mod node;
mod rounds;
mod tables;
mod texts;
mod values;
mod words;
mod world;

use std::fmt;
use std::io::{self, BufRead, BufWriter, Write};
use std::process::ExitCode;

use crate::lines::{Line, LineReader};
use crate::texts::{read_lock_call, read_nodes, read_owned, read_process, read_rule, read_text};
use crate::values::{NameCall, Nodes, Standing};
use crate::words::{Refusal, Rule};
use crate::world::World;

impl World {
    /// Plays a line, and tells what it prints behind its answers.
    fn play(&mut self, words: &[&str]) -> Result<String, Refusal> {
        match *words {
            ["spawn", node] => {
                let place = self.running(read_text(node)?)?.0;
                return Ok(line(self.nodes[place].spawn()?));
            }
            ["exit", process] => {
                self.exit(read_process(process)?)?;
                return Ok(line("ok"));
            }
            [word @ ("register" | "re_register"), node, name, process, ref rule @ ..]
                if rule.len() < 2 =>
            {
                let (node, name) = (read_text(node)?, read_owned(name)?);
                let owner = read_process(process)?;
                let rule = rule
                    .first()
                    .map_or(Ok(Rule::Exit), |text| read_rule(text))?;
                let standing = Standing { owner, rule };
                let call = match word {
                    "register" => NameCall::Register(name, standing),
                    _ => NameCall::ReRegister(name, standing),
                };
                self.call_name(node, call)?;
            }
            ["unregister", node, name] => {
                let (node, name) = (read_text(node)?, read_owned(name)?);
                self.call_name(node, NameCall::Unregister(name))?;
            }
            ["whereis", node, name] => {
                let owner = self.whereis(read_text(node)?, read_text(name)?)?;
                return Ok(owner.map_or(line("undefined"), line));
            }
            ["names", node] => return Ok(list("names", self.names(read_text(node)?)?)),
            ["notices", process] => {
                return Ok(list("notices", self.notices(read_process(process)?)?));
            }
            ["set_lock", process, resource, requester, nodes, retries] => {
                let texts = [process, resource, requester, nodes, retries];
                self.call_lock(read_lock_call(texts)?, true)?;
            }
            ["del_lock", process, resource, requester, nodes] => {
                let texts = [process, resource, requester, nodes, "0"];
                self.call_lock(read_lock_call(texts)?, false)?;
            }
            ["deliver", from, to] => self.deliver(read_text(from)?, read_text(to)?)?,
            ["retry", node] => self.retry(read_text(node)?)?,
            ["join", node, contact] => self.join(read_text(node)?, read_text(contact)?)?,
            ["leave", node] => {
                self.leave(read_text(node)?)?;
                return Ok(line("ok"));
            }
            ["settle"] => {
                self.settle()?;
                return Ok(line("settled"));
            }
            ["members", node] => {
                let node = self.running(read_text(node)?)?.1;
                return Ok(list("members", &node.members));
            }
            ["table", node] => {
                let owners = self.running(read_text(node)?)?.1.table.owners.iter();
                let pairs = owners.map(|(name, standing)| format!("{name}={standing}"));
                return Ok(list("table", pairs));
            }
            _ => return Err(Refusal::BadLine),
        }
        Ok(String::new())
    }
}

fn line(text: impl fmt::Display) -> String {
    format!("{text}\n")
}

/// A line of a word and what it lists.
fn list<T: fmt::Display>(word: &str, items: impl IntoIterator<Item = T>) -> String {
    let mut text = word.to_string();
    for item in items {
        text += &format!(" {item}");
    }
    line(text)
}

/// The nodes of the `cluster` line.
fn read_cluster(line: Option<Line>) -> Result<Nodes, Refusal> {
    match line.unwrap_or(Err(Refusal::BadLine))?.as_slice() {
        ["cluster"] => Err(Refusal::NoNode),
        ["cluster", texts @ ..] => read_nodes(texts, &Nodes::new()),
        _ => Err(Refusal::BadLine),
    }
}

/// The nodes of a `lone` line, where this line is one.
fn read_lone(line: &Option<Line>, cluster: &Nodes) -> Option<Result<Nodes, Refusal>> {
    match line.as_ref()?.as_deref() {
        Ok(["lone", texts @ ..]) => Some(read_nodes(texts, cluster)),
        _ => None,
    }
}

/// Prints a refusal, with which the script isn't fine.
fn refuse(output: &mut impl Write, refusal: Refusal) -> io::Result<bool> {
    writeln!(output, "error {refusal}")?;
    Ok(false)
}

/// Plays a script, and tells whether no line was refused.
fn play_script(lines: &mut LineReader<impl BufRead>, output: &mut impl Write) -> io::Result<bool> {
    let cluster = match read_cluster(lines.next_line()?) {
        Ok(cluster) => cluster,
        Err(refusal) => return refuse(output, refusal),
    };
    let mut line = lines.next_line()?;
    let lone = match read_lone(&line, &cluster) {
        Some(Ok(lone)) => {
            line = lines.next_line()?;
            lone
        }
        Some(Err(refusal)) => return refuse(output, refusal),
        None => Nodes::new(),
    };
    let mut world = World::new(cluster, lone);
    let mut is_fine = true;
    while let Some(words) = line {
        let played = words.and_then(|words| world.play(&words));
        for answer in world.answers.drain(..) {
            writeln!(output, "{answer}")?;
        }
        match played {
            Ok(text) => output.write_all(text.as_bytes())?,
            Err(refusal) => is_fine = refuse(output, refusal)?,
        }
        line = lines.next_line()?;
    }
    Ok(is_fine)
}

fn main() -> ExitCode {
    let mut lines = LineReader::new(io::stdin().lock());
    let mut output = BufWriter::new(io::stdout().lock());
    let played = play_script(&mut lines, &mut output);
    match (played, output.flush()) {
        (Ok(true), Ok(())) => ExitCode::SUCCESS,
        _ => ExitCode::FAILURE,
    }
}
