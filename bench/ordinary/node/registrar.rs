//! The registrar of a node: it asks for the global lock, decides and writes, one operation at a time.

use std::mem;

use crate::letters::{Change, Entry, Letter, Welcome};
use crate::node::Node;
use crate::rounds::Round;
use crate::values::{Answer, Claim, NameCall, Names, NodeName, Nodes, Pid, GLOBAL};
use crate::words::Reply;

/// What a registrar carries out under the global lock.
pub(crate) enum Operation {
    Name {
        number: u32,
        call: NameCall,
    },
    Strike(Pid),
    /// With the answer that the joiner will have.
    Admission {
        joined: Answer,
        names: Names,
    },
}

/// This node is to join by a contact.
pub(crate) struct Join {
    pub(crate) number: u32,
    pub(crate) contact: NodeName,
}

/// What waits for a registrar.
pub(crate) enum Request {
    Operation(Operation),
    Join(Join),
}

/// What a registrar is at.
#[derive(Default)]
pub(crate) enum Phase {
    #[default]
    Free,
    Asking(Operation, Round),
    /// The lock was refused; a retry begins a new round.
    Waiting(Operation),
    Writing(Writing),
    Joining(Join),
}

/// Who was asked for the lock, who has to say still that the change was written, and what is answered then.
#[derive(Default)]
pub(crate) struct Writing {
    asked: Nodes,
    awaited: Nodes,
    answer: Option<Answer>,
}

impl Node {
    /// What the registrar claims.
    fn global_claim(&self) -> Claim {
        Claim {
            resource: GLOBAL.to_string(),
            requester: self.name.clone(),
            holder: self.process(0),
        }
    }

    /// The least dead process that has a name.
    fn owed_strike(&mut self) -> Option<Pid> {
        while let Some(&serial) = self.suspects.first() {
            let process = self.process(serial);
            if self.table.by_owner.has(&process) {
                return Some(process);
            }
            self.suspects.remove(&serial);
        }
        None
    }

    /// Where the registrar is free, it begins what is next.
    pub(crate) fn start(&mut self) {
        while let Phase::Free = self.phase {
            if let Some(process) = self.owed_strike() {
                return self.ask(Operation::Strike(process));
            }
            match self.queue.pop_front() {
                Some(Request::Operation(operation)) => self.ask(operation),
                Some(Request::Join(join)) => self.ask_join(join),
                None => return,
            }
        }
    }

    /// Begins a round for the global lock.
    pub(super) fn ask(&mut self, operation: Operation) {
        let members = self.members.clone();
        let round = Round::begin(members, self.global_claim(), &mut self.made);
        let round = round.expect("a node is its own member");
        self.phase = Phase::Asking(operation, round);
    }

    fn ask_join(&mut self, join: Join) {
        if self.told.contains(&join.contact) {
            return self.lose_contact(join);
        }
        let number = join.number;
        let names = self.table.owners.clone();
        let letter = Letter::JoinAsk { number, names };
        self.made.send(&join.contact, letter);
        self.phase = Phase::Joining(join);
    }

    pub(super) fn lose_contact(&mut self, join: Join) {
        let answer = Answer::new(&self.name, join.number, Reply::ContactLeft);
        self.enter(Entry::Join(join.contact, answer.clone()));
        self.end_join(answer);
    }

    pub(super) fn end_join(&mut self, answer: Answer) {
        self.made.answers.push(answer);
        self.is_joining = false;
    }

    /// Takes the join by this contact, where the registrar is at it.
    pub(super) fn take_join(&mut self, contact: &str) -> Option<Join> {
        match mem::take(&mut self.phase) {
            Phase::Joining(join) if join.contact == contact => return Some(join),
            phase => self.phase = phase,
        }
        None
    }

    /// Ends the registrar's round, where it is over.
    pub(super) fn end_round(&mut self) {
        match mem::take(&mut self.phase) {
            Phase::Asking(operation, round) if round.is_over() => {
                // The growth check: a member that wasn't asked spoils the round.
                if round.is_held() && self.members.is_subset(&round.asked) {
                    self.decide(operation, round.asked);
                } else {
                    round.give_back(self.global_claim(), &mut self.made);
                    self.phase = Phase::Waiting(operation);
                }
            }
            phase => self.phase = phase,
        }
    }

    /// The lock is held at those that were asked: the operation is decided.
    fn decide(&mut self, operation: Operation, asked: Nodes) {
        match operation {
            Operation::Name { number, call } => self.decide_name(number, call, asked),
            Operation::Strike(process) => {
                self.enter(Entry::Strike(process.clone()));
                self.write_all(Change::Strike(process), asked, None);
            }
            Operation::Admission { joined, .. } if self.told.contains(&joined.node) => {
                self.unlock(&asked);
            }
            Operation::Admission { joined, names } => self.admit(joined, names, asked),
        }
    }

    fn unlock(&mut self, asked: &Nodes) {
        let claim = self.global_claim();
        let acknowledge = false;
        let letter = Letter::GiveBack { claim, acknowledge };
        self.made.send_all(asked, letter);
    }

    /// What a name call is answered, and what is written where it is granted.
    fn outcome(&self, call: &NameCall) -> (Reply, Option<Change>) {
        let (name, standing, is_free) = match call {
            NameCall::Unregister(name) => return (Reply::Ok, Some(Change::Remove(name.clone()))),
            NameCall::ReRegister(name, standing) => (name, standing, true),
            NameCall::Register(name, standing) => {
                let is_taken = self.table.owners.contains_key(name);
                let has_name = self.table.by_owner.has(&standing.owner);
                (name, standing, !is_taken && !has_name)
            }
        };
        if !self.members.contains(&standing.owner.node) {
            (Reply::UnknownNode, None)
        } else if is_free {
            let put = Change::Put(name.clone(), standing.clone());
            (Reply::Yes, Some(put))
        } else {
            (Reply::No, None)
        }
    }

    fn decide_name(&mut self, number: u32, call: NameCall, asked: Nodes) {
        let (reply, change) = self.outcome(&call);
        let answer = Answer::new(&self.name, number, reply);
        self.enter(Entry::Name(call, answer.clone()));
        if let Some(change) = change {
            self.write_all(change, asked, Some(answer));
        } else {
            self.made.answers.push(answer);
            self.unlock(&asked);
        }
    }

    /// The change goes to every member, and each is to say that it was written.
    fn write_all(&mut self, change: Change, asked: Nodes, answer: Option<Answer>) {
        self.made.send_all(&self.members, Letter::Apply(change));
        self.phase = Phase::Writing(Writing {
            asked,
            awaited: self.members.clone(),
            answer,
        });
    }

    /// The joiner is let in: the members are told to admit it, and it is welcomed.
    fn admit(&mut self, joined: Answer, names: Names, asked: Nodes) {
        let settlement = self.table.settle(names);
        let joiner = joined.node.clone();
        self.enter(Entry::Join(self.name.clone(), joined));
        let mut awaited = self.members.clone();
        awaited.insert(joiner.clone());
        let mut names = self.table.owners.clone();
        names.extend(settlement.puts.clone());
        for name in &settlement.removes {
            names.remove(name);
        }
        let welcome = Letter::Welcome(Welcome {
            members: awaited.clone(),
            names,
            told: self.told.clone(),
            kills: settlement.kills.clone(),
            notices: settlement.notices.clone(),
        });
        self.made.send(&joiner, welcome);
        let admit = Letter::Admit(joiner, settlement);
        self.made.send_all(&self.members, admit);
        self.phase = Phase::Writing(Writing {
            asked,
            awaited,
            answer: None,
        });
    }

    /// A node has written what it was told to, or has left.
    pub(super) fn hear_applied(&mut self, from: &str) {
        if let Phase::Writing(writing) = &mut self.phase {
            writing.awaited.remove(from);
            if writing.awaited.is_empty() {
                let done = mem::take(writing);
                self.phase = Phase::Free;
                self.enter(Entry::Done(self.name.clone()));
                self.made.answers.extend(done.answer);
                self.unlock(&done.asked);
            }
        }
    }
}
