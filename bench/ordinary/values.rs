//! The values that all modules speak of: nodes, processes, names, claims and answers.

use std::collections::{BTreeMap, BTreeSet};
use std::fmt;

use crate::words::{Reply, Rule};

/// The resource that registrars lock; clients can't.
pub(crate) const GLOBAL: &str = "global";

pub(crate) type NodeName = String;

pub(crate) type Nodes = BTreeSet<NodeName>;

/// Names with what stands under them.
pub(crate) type Names = BTreeMap<String, Standing>;

/// What stands under a name: who has it, and what becomes of it in a clash.
#[derive(Clone, Debug, PartialEq, Eq)]
pub(crate) struct Standing {
    pub(crate) owner: Pid,
    pub(crate) rule: Rule,
}

impl fmt::Display for Standing {
    fn fmt(&self, f: &mut fmt::Formatter) -> fmt::Result {
        match self.rule {
            Rule::Exit => write!(f, "{}", self.owner),
            rule => write!(f, "{},{rule}", self.owner),
        }
    }
}

/// What a process is told that lost a name and lives: the name, and who else lost it, where nobody has it.
#[derive(Clone, Debug, PartialEq, Eq)]
pub(crate) struct Notice {
    pub(crate) name: String,
    pub(crate) other: Option<Pid>,
}

impl fmt::Display for Notice {
    fn fmt(&self, f: &mut fmt::Formatter) -> fmt::Result {
        match &self.other {
            Some(other) => write!(f, "{}={other}", self.name),
            None => f.write_str(&self.name),
        }
    }
}

/// A process; serial 0 is the registrar of its node.
#[derive(Clone, Debug, PartialEq, Eq, Hash)]
pub(crate) struct Pid {
    pub(crate) node: NodeName,
    pub(crate) serial: u32,
}

impl fmt::Display for Pid {
    fn fmt(&self, f: &mut fmt::Formatter) -> fmt::Result {
        write!(f, "{}.{}", self.node, self.serial)
    }
}

/// A resource, under which requester it is locked, and for whom.
#[derive(Clone)]
pub(crate) struct Claim {
    pub(crate) resource: String,
    pub(crate) requester: String,
    pub(crate) holder: Pid,
}

/// A call that asks a registrar to change who has a name.
#[derive(Debug, PartialEq, Eq)]
pub(crate) enum NameCall {
    Register(String, Standing),
    ReRegister(String, Standing),
    Unregister(String),
}

/// The answer to a numbered call of a node.
#[derive(Clone, Debug, PartialEq, Eq)]
pub(crate) struct Answer {
    pub(crate) node: NodeName,
    number: u32,
    reply: Reply,
}

impl Answer {
    pub(crate) fn new(node: &str, number: u32, reply: Reply) -> Answer {
        let node = node.to_string();
        Answer {
            node,
            number,
            reply,
        }
    }
}

impl fmt::Display for Answer {
    fn fmt(&self, f: &mut fmt::Formatter) -> fmt::Result {
        write!(f, "{}#{} {}", self.node, self.number, self.reply)
    }
}
