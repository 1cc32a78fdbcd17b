//! The world: its nodes, the links between them and deliveries, and calls with their refusals.

use std::collections::{BTreeMap, HashMap, VecDeque};
use std::mem;

use crate::letters::{Entry, Letter};
use crate::node::lock_calls::LockCall;
use crate::node::registrar::{Join, Operation, Phase, Request};
use crate::node::Node;
use crate::values::{Answer, NameCall, NodeName, Nodes, Notice, Pid, GLOBAL};
use crate::words::Refusal;

const SETTLE_LIMIT: u32 = 100_000;

/// A link leads from one node to another, each by its place in the world.
#[derive(Clone, Copy, PartialEq, Eq, PartialOrd, Ord)]
struct Link {
    from: usize,
    to: usize,
}

/// Up to eight nodes, which rise by name, their links, and what they have made.
pub(crate) struct World {
    pub(crate) nodes: Vec<Node>,
    places: HashMap<NodeName, usize>,
    links: BTreeMap<Link, VecDeque<Letter>>,
    pub(crate) answers: Vec<Answer>,
    /// Kept for whoever has the world; a script doesn't show it.
    history: Vec<Entry>,
}

impl World {
    pub(crate) fn new(cluster: Nodes, lone: Nodes) -> World {
        let names = cluster.union(&lone);
        let places = names.clone().cloned().zip(0..).collect();
        World {
            nodes: names.map(|name| Node::new(name, &cluster)).collect(),
            places,
            links: BTreeMap::new(),
            answers: Vec::new(),
            history: Vec::new(),
        }
    }

    fn place(&self, node: &str) -> Result<usize, Refusal> {
        self.places.get(node).copied().ok_or(Refusal::NoSuchNode)
    }

    /// A node that hasn't left, and its place.
    pub(crate) fn running(&self, name: &str) -> Result<(usize, &Node), Refusal> {
        let place = self.place(name)?;
        let node = &self.nodes[place];
        if node.has_left {
            return Err(Refusal::NodeLeft);
        }
        Ok((place, node))
    }

    /// A step of a node: what it does, and what its registrar begins then.
    fn step(&mut self, place: usize, act: impl FnOnce(&mut Node)) {
        let node = &mut self.nodes[place];
        act(node);
        node.start();
        self.take_made(place);
    }

    /// Takes what the step of a node has made. Letters to a node that has left are dropped.
    fn take_made(&mut self, from: usize) {
        let mut made = mem::take(&mut self.nodes[from].made);
        self.answers.append(&mut made.answers);
        self.history.append(&mut made.history);
        for (receiver, letter) in made.letters.drain(..) {
            let to = self.places[&receiver];
            if !self.nodes[to].has_left {
                let link = Link { from, to };
                self.links.entry(link).or_default().push_back(letter);
            }
        }
        self.nodes[from].made = made;
    }

    /// The step of a call, which is numbered first.
    fn call(&mut self, name: &str, act: impl FnOnce(&mut Node, u32)) -> Result<(), Refusal> {
        let (place, node) = self.running(name)?;
        let number = node.last_number.checked_add(1);
        let number = number.ok_or(Refusal::CallsSpent)?;
        self.step(place, |node| {
            node.last_number = number;
            act(node, number);
        });
        Ok(())
    }

    pub(crate) fn call_name(&mut self, name: &str, call: NameCall) -> Result<(), Refusal> {
        self.call(name, |node, number| {
            let operation = Operation::Name { number, call };
            node.queue.push_back(Request::Operation(operation));
        })
    }

    pub(crate) fn exit(&mut self, process: Pid) -> Result<(), Refusal> {
        let (place, node) = self.running(&process.node)?;
        if process.serial > node.last_serial {
            return Err(Refusal::NoSuchProcess);
        }
        if node.dead.contains(&process.serial) {
            return Err(Refusal::AlreadyExited);
        }
        self.step(place, |node| {
            node.die(&process);
            node.enter(Entry::Exit(process));
        });
        Ok(())
    }

    pub(crate) fn whereis(&mut self, node: &str, name: &str) -> Result<Option<Pid>, Refusal> {
        let standing = self.running(node)?.1.table.owners.get(name);
        let owner = standing.map(|standing| standing.owner.clone());
        let entry = Entry::Found(node.to_string(), name.to_string(), owner.clone());
        self.history.push(entry);
        Ok(owner)
    }

    pub(crate) fn names(&mut self, node: &str) -> Result<Vec<String>, Refusal> {
        let table = &self.running(node)?.1.table;
        let names: Vec<String> = table.owners.keys().cloned().collect();
        let entry = Entry::Listed(node.to_string(), names.clone());
        self.history.push(entry);
        Ok(names)
    }

    pub(crate) fn notices(&mut self, process: Pid) -> Result<Vec<Notice>, Refusal> {
        let node = self.running(&process.node)?.1;
        if process.serial > node.last_serial {
            return Err(Refusal::NoSuchProcess);
        }
        let notices = node
            .notices
            .get(&process.serial)
            .cloned()
            .unwrap_or_default();
        self.history.push(Entry::Noted(process, notices.clone()));
        Ok(notices)
    }

    /// The lock call is accepted, and tried at once.
    pub(crate) fn call_lock(&mut self, call: LockCall, is_set: bool) -> Result<(), Refusal> {
        let Pid { node, serial } = call.claim.holder.clone();
        let client = self.running(&node)?.1;
        if !client.is_live(&call.claim.holder) {
            return Err(Refusal::NotLive);
        }
        if client.lock_calls.contains_key(&serial) {
            return Err(Refusal::Busy);
        }
        if call.claim.resource == GLOBAL {
            return Err(Refusal::Reserved);
        }
        if is_set && !call.target.is_among(&client.members) {
            return Err(Refusal::UnknownNode);
        }
        self.call(&node, |node, number| {
            let call = LockCall { number, ..call };
            node.lock_calls.insert(serial, call);
            if is_set {
                node.try_lock(serial);
            } else {
                node.try_deletion(serial);
            }
        })
    }

    pub(crate) fn join(&mut self, name: &str, contact: &str) -> Result<(), Refusal> {
        self.place(name)?;
        self.place(contact)?;
        let node = self.running(name)?.1;
        if node.is_joined || node.is_joining {
            return Err(Refusal::AlreadyJoined);
        }
        let contact = contact.to_string();
        self.call(name, |node, number| {
            node.is_joining = true;
            node.queue
                .push_back(Request::Join(Join { number, contact }));
        })
    }

    pub(crate) fn retry(&mut self, name: &str) -> Result<(), Refusal> {
        let (place, node) = self.running(name)?;
        let is_waiting = matches!(node.phase, Phase::Waiting(_));
        if !is_waiting && node.waiting_calls().next().is_none() {
            return Err(Refusal::NothingToRetry);
        }
        self.step(place, Node::retry);
        Ok(())
    }

    pub(crate) fn leave(&mut self, name: &str) -> Result<(), Refusal> {
        let (place, node) = self.running(name)?;
        if let Phase::Writing(_) = node.phase {
            return Err(Refusal::HoldsLock);
        }
        let node = &mut self.nodes[place];
        node.has_left = true;
        node.enter(Entry::Left(name.to_string()));
        node.made.send_all(self.places.keys(), Letter::Down);
        self.take_made(place); // its letter to itself is dropped
        self.links.retain(|link, _| link.to != place);
        Ok(())
    }

    pub(crate) fn deliver(&mut self, from: &str, to: &str) -> Result<(), Refusal> {
        let from = self.place(from)?;
        let to = self.running(to)?.0;
        self.deliver_by(Link { from, to })
    }

    /// Delivers the oldest letter of a link.
    fn deliver_by(&mut self, link: Link) -> Result<(), Refusal> {
        let letters = self.links.get_mut(&link).ok_or(Refusal::EmptyLink)?;
        let letter = letters.pop_front().ok_or(Refusal::EmptyLink)?;
        let from = self.nodes[link.from].name.clone();
        self.step(link.to, |node| node.read(&from, letter));
        Ok(())
    }

    /// The first link that has a letter.
    fn first_waiting(&self) -> Option<Link> {
        let mut links = self.links.iter();
        let waiting = links.find(|(_, letters)| !letters.is_empty());
        waiting.map(|(&link, _)| link)
    }

    pub(crate) fn settle(&mut self) -> Result<(), Refusal> {
        let mut delivered = 0;
        while let Some(link) = self.first_waiting() {
            if delivered == SETTLE_LIMIT {
                return Err(Refusal::SettleLimit);
            }
            self.deliver_by(link)?;
            delivered += 1;
        }
        Ok(())
    }
}
