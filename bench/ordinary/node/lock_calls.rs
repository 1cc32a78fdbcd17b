//! The lock calls of a node: how `set_lock` and `del_lock` go from step to step.

use crate::letters::Letter;
use crate::node::Node;
use crate::rounds::Round;
use crate::values::{Answer, Claim, NodeName, Nodes};
use crate::words::Reply;

/// The nodes that a lock call goes to.
pub(crate) enum Target {
    All,
    Named(Nodes),
}

impl Target {
    fn has(&self, node: &NodeName) -> bool {
        match self {
            Target::All => true,
            Target::Named(nodes) => nodes.contains(node),
        }
    }

    pub(crate) fn is_among(&self, members: &Nodes) -> bool {
        match self {
            Target::All => true,
            Target::Named(nodes) => nodes.is_subset(members),
        }
    }
}

/// How often a refused `set_lock` may ask again.
pub(crate) enum Retries {
    Limited(u32),
    Infinity,
}

/// A lock call that isn't answered.
pub(crate) struct LockCall {
    pub(crate) number: u32,
    pub(crate) claim: Claim,
    pub(crate) target: Target,
    pub(crate) retries: Retries,
    pub(crate) phase: LockPhase,
}

/// How far a lock call is: a `set_lock` asks or waits for a retry, a `del_lock` waits for these nodes.
pub(crate) enum LockPhase {
    Asking(Round),
    Waiting,
    Deleting(Nodes),
}

impl Node {
    /// Begins a round of a `set_lock`.
    pub(crate) fn try_lock(&mut self, serial: u32) {
        if let Some(call) = self.lock_calls.get_mut(&serial) {
            let mut asked = self.members.clone();
            asked.retain(|member| call.target.has(member));
            match Round::begin(asked, call.claim.clone(), &mut self.made) {
                Some(round) => call.phase = LockPhase::Asking(round),
                None => self.end_lock_call(serial, Reply::False),
            }
        }
    }

    fn end_lock_call(&mut self, serial: u32, reply: Reply) {
        if let Some(call) = self.lock_calls.remove(&serial) {
            let answer = Answer::new(&self.name, call.number, reply);
            self.made.answers.push(answer);
        }
    }

    /// Ends the round of a `set_lock`, where it is over.
    pub(super) fn end_lock_round(&mut self, serial: u32) {
        if let Some(call) = self.lock_calls.get_mut(&serial) {
            match &call.phase {
                LockPhase::Asking(round) if round.is_over() => {
                    if round.is_held() {
                        return self.end_lock_call(serial, Reply::True);
                    }
                    round.give_back(call.claim.clone(), &mut self.made);
                    call.phase = LockPhase::Waiting;
                    if let Retries::Limited(0) = call.retries {
                        self.end_lock_call(serial, Reply::False);
                    }
                }
                _ => {}
            }
        }
    }

    /// Asks for a grant back at the nodes of a `del_lock`.
    pub(crate) fn try_deletion(&mut self, serial: u32) {
        if let Some(call) = self.lock_calls.get_mut(&serial) {
            let mut awaited = self.members.clone();
            awaited.retain(|member| call.target.has(member));
            if awaited.is_empty() {
                return self.end_lock_call(serial, Reply::True);
            }
            let claim = call.claim.clone();
            let acknowledge = true;
            let letter = Letter::GiveBack { claim, acknowledge };
            self.made.send_all(&awaited, letter);
            call.phase = LockPhase::Deleting(awaited);
        }
    }

    /// A node has taken a grant back, or has left.
    pub(super) fn hear_given_back(&mut self, from: &str, serial: u32) {
        if let Some(call) = self.lock_calls.get_mut(&serial) {
            if let LockPhase::Deleting(awaited) = &mut call.phase {
                awaited.remove(from);
                if awaited.is_empty() {
                    self.end_lock_call(serial, Reply::True);
                }
            }
        }
    }

    /// The lock calls that wait for a retry.
    pub(crate) fn waiting_calls(&self) -> impl Iterator<Item = u32> + '_ {
        let calls = self.lock_calls.iter();
        let waiting = calls.filter(|(_, call)| matches!(call.phase, LockPhase::Waiting));
        waiting.map(|(&serial, _)| serial)
    }
}
