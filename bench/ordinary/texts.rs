//! Reads the texts of a line: names, processes, retries, nodes and lock calls.

use crate::node::lock_calls::{LockCall, LockPhase, Retries, Target};
use crate::values::{Claim, Nodes, Pid};
use crate::words::{Refusal, Rule};

const LONGEST_TEXT: usize = 64;
const MOST_NODES: usize = 8;

/// Checks a name, a resource or a requester; nodes are spelled by the same rule.
pub(crate) fn read_text(text: &str) -> Result<&str, Refusal> {
    let is_allowed = |byte: u8| byte.is_ascii_alphanumeric() || b"_-@".contains(&byte);
    if text.is_empty() {
        Err(Refusal::Empty)
    } else if text.len() > LONGEST_TEXT {
        Err(Refusal::TooLong)
    } else if !text.bytes().all(is_allowed) {
        Err(Refusal::BadByte)
    } else {
        Ok(text)
    }
}

pub(crate) fn read_owned(text: &str) -> Result<String, Refusal> {
    read_text(text).map(str::to_string)
}

/// A number in decimal digits, without needless zeros.
fn read_number(text: &str) -> Option<u32> {
    let has_needless_zero = text.len() > 1 && text.starts_with('0');
    if has_needless_zero || !text.bytes().all(|byte| byte.is_ascii_digit()) {
        return None;
    }
    text.parse().ok()
}

pub(crate) fn read_process(text: &str) -> Result<Pid, Refusal> {
    let (node, serial) = text.split_once('.').unwrap_or((text, ""));
    let node = read_owned(node)?;
    let serial = read_number(serial).filter(|&serial| serial > 0);
    let serial = serial.ok_or(Refusal::BadSerial)?;
    Ok(Pid { node, serial })
}

pub(crate) fn read_rule(text: &str) -> Result<Rule, Refusal> {
    match text {
        "exit" => Ok(Rule::Exit),
        "notify" => Ok(Rule::Notify),
        "notify_all" => Ok(Rule::NotifyAll),
        _ => Err(Refusal::BadRule),
    }
}

fn read_retries(text: &str) -> Result<Retries, Refusal> {
    if text == "infinity" {
        return Ok(Retries::Infinity);
    }
    let number = read_number(text).ok_or(Refusal::BadLine)?;
    Ok(Retries::Limited(number))
}

fn read_target(text: &str) -> Result<Target, Refusal> {
    if text == "all" {
        return Ok(Target::All);
    }
    let nodes: Result<Nodes, Refusal> = text.split(',').map(read_owned).collect();
    let nodes = nodes?;
    if nodes.len() > MOST_NODES {
        return Err(Refusal::TooManyNodes);
    }
    Ok(Target::Named(nodes))
}

/// A lock call of these texts, which has no number yet.
pub(crate) fn read_lock_call(texts: [&str; 5]) -> Result<LockCall, Refusal> {
    let [process, resource, requester, nodes, retries] = texts;
    let retries = read_retries(retries)?;
    let holder = read_process(process)?;
    let claim = Claim {
        resource: read_owned(resource)?,
        requester: read_owned(requester)?,
        holder,
    };
    Ok(LockCall {
        number: 0,
        claim,
        target: read_target(nodes)?,
        retries,
        phase: LockPhase::Waiting,
    })
}

/// The nodes of a header, beside those of the header before it.
pub(crate) fn read_nodes(texts: &[&str], before: &Nodes) -> Result<Nodes, Refusal> {
    let nodes: Result<Nodes, Refusal> = texts.iter().map(|text| read_owned(text)).collect();
    let nodes = nodes?;
    if nodes.len() < texts.len() || !nodes.is_disjoint(before) {
        return Err(Refusal::SameNode);
    }
    if nodes.len() + before.len() > MOST_NODES {
        return Err(Refusal::TooManyNodes);
    }
    Ok(nodes)
}
