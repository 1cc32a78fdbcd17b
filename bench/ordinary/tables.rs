//! The tables of a node: names with their owners, and locks with their holders.

use std::collections::{HashMap, HashSet};

use crate::letters::Settlement;
use crate::values::{Claim, Names, NodeName, Notice, Pid, Standing};
use crate::words::Rule;

/// Texts by the process that has them: names by owner, or resources by holder.
#[derive(Default)]
pub(crate) struct ProcessIndex(HashMap<NodeName, HashMap<u32, HashSet<String>>>);

impl ProcessIndex {
    pub(crate) fn has(&self, process: &Pid) -> bool {
        let serials = self.0.get(&process.node);
        serials.is_some_and(|serials| serials.contains_key(&process.serial))
    }

    fn insert(&mut self, process: &Pid, text: String) {
        let serials = match self.0.get_mut(&process.node) {
            Some(serials) => serials,
            None => self.0.entry(process.node.clone()).or_default(),
        };
        serials.entry(process.serial).or_default().insert(text);
    }

    fn remove(&mut self, process: &Pid, text: &str) {
        if let Some(serials) = self.0.get_mut(&process.node) {
            if let Some(texts) = serials.get_mut(&process.serial) {
                texts.remove(text);
                if texts.is_empty() {
                    serials.remove(&process.serial);
                }
            }
        }
    }

    fn take_process(&mut self, process: &Pid) -> HashSet<String> {
        let serials = self.0.get_mut(&process.node);
        let texts = serials.and_then(|serials| serials.remove(&process.serial));
        texts.unwrap_or_default()
    }

    fn take_node(&mut self, node: &str) -> HashMap<u32, HashSet<String>> {
        self.0.remove(node).unwrap_or_default()
    }
}

/// The table of names of one node.
#[derive(Default)]
pub(crate) struct NameTable {
    pub(crate) owners: Names,
    pub(crate) by_owner: ProcessIndex,
}

impl NameTable {
    pub(crate) fn put(&mut self, name: String, standing: Standing) {
        self.remove(&name);
        self.by_owner.insert(&standing.owner, name.clone());
        self.owners.insert(name, standing);
    }

    pub(crate) fn remove(&mut self, name: &str) {
        if let Some(standing) = self.owners.remove(name) {
            self.by_owner.remove(&standing.owner, name);
        }
    }

    pub(crate) fn strike(&mut self, process: &Pid) {
        for name in self.by_owner.take_process(process) {
            self.owners.remove(&name);
        }
    }

    pub(crate) fn drop_node(&mut self, node: &str) {
        for name in self.by_owner.take_node(node).into_values().flatten() {
            self.owners.remove(&name);
        }
    }

    /// Settles a joiner's names, each by the rule under which the name stands here.
    pub(crate) fn settle(&self, joiner_names: Names) -> Settlement {
        let mut settlement = Settlement::default();
        let mut killed = HashSet::new();
        for (name, joiner) in joiner_names {
            match self.owners.get(&name) {
                None => {
                    settlement.puts.insert(name, joiner);
                }
                Some(present) if present.owner == joiner.owner => {}
                Some(present) if present.rule == Rule::NotifyAll => {
                    settlement.tell(&present.owner, &name, Some(joiner.owner.clone()));
                    settlement.tell(&joiner.owner, &name, Some(present.owner.clone()));
                    settlement.removes.push(name);
                }
                Some(present) => {
                    // Of two owners the one on the lesser node keeps the name, and the present one on the same.
                    let loser = if present.owner.node <= joiner.owner.node {
                        joiner.owner
                    } else {
                        settlement.puts.insert(name.clone(), joiner);
                        present.owner.clone()
                    };
                    if present.rule == Rule::Notify {
                        settlement.tell(&loser, &name, None);
                    } else if killed.insert(loser.clone()) {
                        settlement.kills.push(loser);
                    }
                }
            }
        }
        settlement
    }
}

impl Settlement {
    fn tell(&mut self, process: &Pid, name: &str, other: Option<Pid>) {
        let name = name.to_string();
        self.notices.push((process.clone(), Notice { name, other }));
    }
}

/// A lock that is held: its requester, and how many grants each holder has.
#[derive(Default)]
struct HeldLock {
    requester: String,
    grants: HashMap<Pid, u32>,
}

/// The locks of one node, by resource.
#[derive(Default)]
pub(crate) struct LockTable {
    locks: HashMap<String, HeldLock>,
    by_holder: ProcessIndex,
}

impl LockTable {
    /// Grants a claim once more, unless another requester has the resource.
    pub(crate) fn grant(&mut self, claim: &Claim) -> bool {
        let held = self.locks.entry(claim.resource.clone()).or_default();
        if held.grants.is_empty() {
            held.requester = claim.requester.clone();
        } else if held.requester != claim.requester {
            return false;
        }
        let count = held.grants.entry(claim.holder.clone()).or_default();
        *count += 1;
        if *count == 1 {
            let resource = claim.resource.clone();
            self.by_holder.insert(&claim.holder, resource);
        }
        true
    }

    /// Takes one grant of a claim back.
    pub(crate) fn give_back(&mut self, claim: &Claim) {
        let held = self.locks.get_mut(&claim.resource);
        if let Some(held) = held.filter(|held| held.requester == claim.requester) {
            if let Some(count) = held.grants.get_mut(&claim.holder) {
                *count -= 1;
                if *count == 0 {
                    self.by_holder.remove(&claim.holder, &claim.resource);
                    self.drop_grants(&claim.resource, &claim.holder);
                }
            }
        }
    }

    fn drop_grants(&mut self, resource: &str, holder: &Pid) {
        if let Some(held) = self.locks.get_mut(resource) {
            held.grants.remove(holder);
            if held.grants.is_empty() {
                self.locks.remove(resource);
            }
        }
    }

    pub(crate) fn release(&mut self, holder: &Pid) {
        for resource in self.by_holder.take_process(holder) {
            self.drop_grants(&resource, holder);
        }
    }

    pub(crate) fn release_node(&mut self, node: &NodeName) {
        for (serial, resources) in self.by_holder.take_node(node) {
            let node = node.clone();
            let holder = Pid { node, serial };
            for resource in resources {
                self.drop_grants(&resource, &holder);
            }
        }
    }
}
