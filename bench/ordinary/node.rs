//! One node: its state, its processes, and how it reads letters.

pub(crate) mod lock_calls;
pub(crate) mod registrar;

use std::collections::{BTreeMap, BTreeSet, HashMap, HashSet, VecDeque};
use std::mem;

use crate::letters::{Change, Entry, Letter, Record, Welcome};
use crate::node::lock_calls::{LockCall, LockPhase, Retries};
use crate::node::registrar::{Operation, Phase, Request};
use crate::tables::{LockTable, NameTable};
use crate::values::{Answer, Claim, Names, NodeName, Nodes, Notice, Pid, Standing};
use crate::words::{Refusal, Reply};

/// One node: its replica of the registry, its locks, its processes and calls, and its registrar.
#[derive(Default)]
pub(crate) struct Node {
    pub(crate) name: NodeName,
    pub(crate) is_joined: bool,
    pub(crate) has_left: bool,
    pub(crate) members: Nodes,
    /// The nodes that it was told have left.
    told: Nodes,
    pub(crate) table: NameTable,
    /// What its processes were told, by serial.
    pub(crate) notices: HashMap<u32, Vec<Notice>>,
    locks: LockTable,
    pub(crate) last_serial: u32,
    pub(crate) dead: HashSet<u32>,
    /// The dead that had a name when they died, or were given one since.
    suspects: BTreeSet<u32>,
    pub(crate) last_number: u32,
    pub(crate) lock_calls: BTreeMap<u32, LockCall>,
    pub(crate) queue: VecDeque<Request>,
    pub(crate) phase: Phase,
    /// A join isn't answered yet.
    pub(crate) is_joining: bool,
    /// What its step has made so far.
    pub(crate) made: Record,
}

impl Node {
    /// A node of this cluster, or else a node alone.
    pub(crate) fn new(name: &NodeName, cluster: &Nodes) -> Node {
        let is_joined = cluster.contains(name);
        let alone = Nodes::from([name.clone()]);
        Node {
            name: name.clone(),
            is_joined,
            members: if is_joined { cluster.clone() } else { alone },
            ..Node::default()
        }
    }

    fn process(&self, serial: u32) -> Pid {
        let node = self.name.clone();
        Pid { node, serial }
    }

    pub(crate) fn is_live(&self, process: &Pid) -> bool {
        process.node == self.name && process.serial > 0 && !self.dead.contains(&process.serial)
    }

    pub(crate) fn enter(&mut self, entry: Entry) {
        self.made.history.push(entry);
    }

    fn put(&mut self, name: String, standing: Standing) {
        let owner = &standing.owner;
        if owner.node == self.name && self.dead.contains(&owner.serial) {
            self.suspects.insert(owner.serial);
        }
        self.table.put(name, standing);
    }

    /// Those of these notices that are to processes of this node come behind what they were told.
    fn note(&mut self, notices: Vec<(Pid, Notice)>) {
        for (process, notice) in notices {
            if process.node == self.name {
                self.notices.entry(process.serial).or_default().push(notice);
            }
        }
    }

    fn write(&mut self, change: Change) {
        match change {
            Change::Put(name, standing) if self.told.contains(&standing.owner.node) => {
                self.table.remove(&name);
            }
            Change::Put(name, standing) => self.put(name, standing),
            Change::Remove(name) => self.table.remove(&name),
            Change::Strike(process) => self.table.strike(&process),
        }
    }

    /// Spawns a process with the next serial that isn't dead.
    pub(crate) fn spawn(&mut self) -> Result<Pid, Refusal> {
        let mut serials = (self.last_serial..=u32::MAX).skip(1);
        let serial = serials.find(|serial| !self.dead.contains(serial));
        self.last_serial = serial.ok_or(Refusal::SerialsSpent)?;
        Ok(self.process(self.last_serial))
    }

    /// The process is dead from now on, and its locks are released.
    pub(crate) fn die(&mut self, process: &Pid) {
        self.dead.insert(process.serial);
        if self.table.by_owner.has(process) {
            self.suspects.insert(process.serial);
        }
        self.lock_calls.remove(&process.serial);
        let release = Letter::ReleaseOf(process.clone());
        self.made.send_all(&self.members, release);
    }

    fn kill(&mut self, processes: &[Pid]) {
        for process in processes {
            if self.is_live(process) {
                self.die(process);
            }
        }
    }

    /// What was refused asks again.
    pub(crate) fn retry(&mut self) {
        match mem::take(&mut self.phase) {
            Phase::Waiting(operation) => self.ask(operation),
            phase => self.phase = phase,
        }
        for serial in self.waiting_calls().collect::<Vec<u32>>() {
            if let Some(call) = self.lock_calls.get_mut(&serial) {
                if let Retries::Limited(left) = &mut call.retries {
                    *left = left.saturating_sub(1);
                }
            }
            self.try_lock(serial);
        }
    }

    /// Reads a letter. Those of a node that is known to have left are dropped, but for its last one.
    pub(crate) fn read(&mut self, from: &NodeName, letter: Letter) {
        if self.told.contains(from) && !matches!(letter, Letter::Down) {
            return;
        }
        match letter {
            Letter::SetLock(claim) => {
                let granted = self.locks.grant(&claim);
                let answer = Letter::LockAnswer { claim, granted };
                self.made.send(from, answer);
            }
            Letter::LockAnswer { claim, granted } => self.read_lock_answer(from, claim, granted),
            Letter::GiveBack { claim, acknowledge } => {
                self.locks.give_back(&claim);
                if acknowledge {
                    self.made.send(from, Letter::GivenBack(claim.holder));
                }
            }
            Letter::GivenBack(holder) => self.hear_given_back(from, holder.serial),
            Letter::ReleaseOf(holder) => self.locks.release(&holder),
            Letter::Apply(change) => {
                self.write(change);
                self.made.send(from, Letter::Applied);
            }
            Letter::Applied => self.hear_applied(from),
            Letter::JoinAsk { number, names } => self.read_join_ask(from, number, names),
            Letter::JoinRefused => {
                if let Some(join) = self.take_join(from) {
                    self.end_join(Answer::new(&self.name, join.number, Reply::NotMember));
                }
            }
            Letter::Admit(joiner, settlement) => {
                if !self.told.contains(&joiner) {
                    self.members.insert(joiner);
                }
                for (name, standing) in settlement.puts {
                    self.write(Change::Put(name, standing));
                }
                for name in settlement.removes {
                    self.write(Change::Remove(name));
                }
                self.note(settlement.notices);
                self.kill(&settlement.kills);
                self.made.send(from, Letter::Applied);
            }
            Letter::Welcome(welcome) => self.read_welcome(from, welcome),
            Letter::Down => self.read_down(from),
        }
    }

    fn read_lock_answer(&mut self, from: &NodeName, claim: Claim, granted: bool) {
        let serial = claim.holder.serial;
        if serial == 0 {
            if let Phase::Asking(_, round) = &mut self.phase {
                round.hear(from, claim, granted, &mut self.made);
                self.end_round();
            }
        } else if let Some(call) = self.lock_calls.get_mut(&serial) {
            if let LockPhase::Asking(round) = &mut call.phase {
                round.hear(from, claim, granted, &mut self.made);
                self.end_lock_round(serial);
            }
        }
    }

    fn read_join_ask(&mut self, from: &NodeName, number: u32, names: Names) {
        if self.is_joined {
            let joined = Answer::new(from, number, Reply::Joined);
            let operation = Operation::Admission { joined, names };
            self.queue.push_back(Request::Operation(operation));
        } else {
            let refused = Answer::new(from, number, Reply::NotMember);
            self.enter(Entry::Join(self.name.clone(), refused));
            self.made.send(from, Letter::JoinRefused);
        }
    }

    /// Takes over the members and names of a cluster, less those that are told to have left.
    fn read_welcome(&mut self, from: &str, welcome: Welcome) {
        if let Some(join) = self.take_join(from) {
            self.is_joined = true;
            self.told.extend(welcome.told);
            self.members = welcome.members.difference(&self.told).cloned().collect();
            self.table = NameTable::default();
            for (name, standing) in welcome.names {
                if !self.told.contains(&standing.owner.node) {
                    self.put(name, standing);
                }
            }
            self.note(welcome.notices);
            self.kill(&welcome.kills);
            self.end_join(Answer::new(&self.name, join.number, Reply::Joined));
            self.made.send(from, Letter::Applied);
        }
    }

    /// A node has left: names, locks, joins, rounds and waits go on without it.
    fn read_down(&mut self, gone: &NodeName) {
        self.enter(Entry::Told(self.name.clone(), gone.clone()));
        self.told.insert(gone.clone());
        self.members.remove(gone);
        self.table.drop_node(gone);
        self.locks.release_node(gone);
        if let Some(join) = self.take_join(gone) {
            self.lose_contact(join);
        }
        if let Phase::Asking(_, round) = &mut self.phase {
            round.mark_down(gone);
            self.end_round();
        } else {
            self.hear_applied(gone);
        }
        let serials: Vec<u32> = self.lock_calls.keys().copied().collect();
        for serial in serials {
            if let Some(call) = self.lock_calls.get_mut(&serial) {
                if let LockPhase::Asking(round) = &mut call.phase {
                    round.mark_down(gone);
                    self.end_lock_round(serial);
                } else {
                    self.hear_given_back(gone, serial);
                }
            }
        }
    }
}
