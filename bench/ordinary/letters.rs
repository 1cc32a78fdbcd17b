//! What the steps of nodes make: letters, answers, and entries of the history.

use crate::values::{Answer, Claim, NameCall, Names, NodeName, Nodes, Notice, Pid, Standing};

/// A change of a table of names.
#[derive(Clone)]
pub(crate) enum Change {
    Put(String, Standing),
    Remove(String),
    Strike(Pid),
}

/// What comes of a joiner's names at the table of its sponsor: which are put, which nobody has any more, who dies, and who is told
/// what.
#[derive(Clone, Default)]
pub(crate) struct Settlement {
    pub(crate) puts: Names,
    pub(crate) removes: Vec<String>,
    pub(crate) kills: Vec<Pid>,
    pub(crate) notices: Vec<(Pid, Notice)>,
}

/// What a joiner is told by its sponsor.
#[derive(Clone)]
pub(crate) struct Welcome {
    pub(crate) members: Nodes,
    pub(crate) names: Names,
    pub(crate) told: Nodes,
    pub(crate) kills: Vec<Pid>,
    pub(crate) notices: Vec<(Pid, Notice)>,
}

/// What a node says to another, or to itself. The number of a join is there for the history.
#[derive(Clone)]
pub(crate) enum Letter {
    SetLock(Claim),
    LockAnswer { claim: Claim, granted: bool },
    GiveBack { claim: Claim, acknowledge: bool },
    GivenBack(Pid),
    ReleaseOf(Pid),
    Apply(Change),
    Applied,
    JoinAsk { number: u32, names: Names },
    JoinRefused,
    Admit(NodeName, Settlement),
    Welcome(Welcome),
    Down,
}

/// An entry of the history of a world, in which they stand in the order in which they took effect.
#[derive(Debug, PartialEq, Eq)]
pub(crate) enum Entry {
    /// A name call was decided.
    Name(NameCall, Answer),
    /// A dead process loses its names.
    Strike(Pid),
    /// A join by this contact was decided.
    Join(NodeName, Answer),
    /// What the node wrote is written everywhere.
    Done(NodeName),
    Exit(Pid),
    Left(NodeName),
    /// The first node was told that the second has left.
    Told(NodeName, NodeName),
    /// A name was looked up at the node.
    Found(NodeName, String, Option<Pid>),
    /// All names were looked up at the node.
    Listed(NodeName, Vec<String>),
    /// What a process was told was looked up at its node.
    Noted(Pid, Vec<Notice>),
}

/// What a step of a node makes: letters and to whom they go, answers, and entries of the history.
#[derive(Default)]
pub(crate) struct Record {
    pub(crate) letters: Vec<(NodeName, Letter)>,
    pub(crate) answers: Vec<Answer>,
    pub(crate) history: Vec<Entry>,
}

impl Record {
    pub(crate) fn send(&mut self, node: &str, letter: Letter) {
        self.letters.push((node.to_string(), letter));
    }

    pub(crate) fn send_all<'a>(
        &mut self,
        nodes: impl IntoIterator<Item = &'a NodeName>,
        letter: Letter,
    ) {
        for node in nodes {
            self.send(node, letter.clone());
        }
    }
}
