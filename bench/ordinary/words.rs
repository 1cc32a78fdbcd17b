//! The words that a script is answered with: refusals and replies.

use std::fmt;

/// An enum of words, each printed as it is written here.
macro_rules! words {
    ($(#[$doc:meta])* $name:ident { $($variant:ident $word:literal,)* }) => {
        $(#[$doc])*
        #[derive(Clone, Copy, Debug, PartialEq, Eq)]
        pub(crate) enum $name {
            $($variant,)*
        }

        impl fmt::Display for $name {
            fn fmt(&self, f: &mut fmt::Formatter) -> fmt::Result {
                f.write_str(match self {
                    $($name::$variant => $word,)*
                })
            }
        }
    };
}

words! {
    /// Why a line is refused.
    Refusal {
        LineTooLong "line_too_long", NotAscii "not_ascii", BadLine "bad_line", Empty "empty", TooLong "too_long",
        BadByte "bad_byte", BadSerial "bad_serial", BadRule "bad_rule", TooManyNodes "too_many_nodes", NoNode "no_node",
        SameNode "same_node", NoSuchNode "no_such_node", NodeLeft "node_left", EmptyLink "empty_link",
        NotLive "not_live", Busy "busy", Reserved "reserved", UnknownNode "unknown_node",
        AlreadyJoined "already_joined", NoSuchProcess "no_such_process", AlreadyExited "already_exited",
        SerialsSpent "serials_spent", CallsSpent "calls_spent", NothingToRetry "nothing_to_retry",
        HoldsLock "holds_lock", SettleLimit "settle_limit",
    }
}

words! {
    /// What becomes of a name that a joiner has, too, for another process.
    Rule {
        Exit "exit", Notify "notify", NotifyAll "notify_all",
    }
}

words! {
    /// What a numbered call is answered.
    Reply {
        Yes "yes", No "no", Ok "ok", UnknownNode "unknown_node", Joined "joined", NotMember "not_member",
        ContactLeft "contact_left", True "true", False "false",
    }
}
