//! Lock rounds, in which nodes are asked for a lock, the boss first.

use crate::letters::{Letter, Record};
use crate::values::{Claim, NodeName, Nodes};

/// A lock round: the boss, the greatest, is asked first, and all others when it has granted. Who goes down is taken out.
pub(crate) struct Round {
    boss: NodeName,
    pub(crate) asked: Nodes,
    /// Who owes an answer.
    awaited: Nodes,
    granted: Nodes,
    is_refused: bool,
}

impl Round {
    /// Begins a round over these nodes, if there are any: the boss is asked.
    pub(crate) fn begin(asked: Nodes, claim: Claim, record: &mut Record) -> Option<Round> {
        let boss = asked.last()?.clone();
        record.send(&boss, Letter::SetLock(claim));
        Some(Round {
            awaited: Nodes::from([boss.clone()]),
            boss,
            asked,
            granted: Nodes::new(),
            is_refused: false,
        })
    }

    /// Hears an answer, where it is owed.
    pub(crate) fn hear(
        &mut self,
        from: &NodeName,
        claim: Claim,
        is_granted: bool,
        record: &mut Record,
    ) {
        if !self.awaited.remove(from) {
            return;
        }
        if !is_granted {
            self.is_refused = true;
            return;
        }
        self.granted.insert(from.clone());
        if *from == self.boss {
            self.awaited.clone_from(&self.asked);
            self.awaited.remove(from);
            record.send_all(&self.awaited, Letter::SetLock(claim));
        }
    }

    pub(crate) fn mark_down(&mut self, node: &NodeName) {
        self.asked.remove(node);
        self.awaited.remove(node);
        self.granted.remove(node);
    }

    pub(crate) fn is_over(&self) -> bool {
        self.awaited.is_empty()
    }

    /// Where the round is over: whether the lock is held at all that were asked.
    pub(crate) fn is_held(&self) -> bool {
        !self.is_refused && !self.granted.is_empty()
    }

    /// Gives back what was granted.
    pub(crate) fn give_back(&self, claim: Claim, record: &mut Record) {
        let acknowledge = false;
        let letter = Letter::GiveBack { claim, acknowledge };
        record.send_all(&self.granted, letter);
    }
}
