//! Stands in for the crate `tracing`. Messages are dropped, but for one: what the published code says when it passes over an
//! unsupported directive is written down for whoever listens. Nothing is made of it where nobody does.

use std::cell::RefCell;
use std::fmt::Display;

/// An unsupported directive that was passed over, as the published code names it.
#[derive(Debug, Clone, PartialEq, Eq)]
pub struct Ignored {
    /// The directive's name.
    pub directive: String,
    /// Its value.
    pub value: String,
    /// Why it is unsupported, as a sentence.
    pub reason: String,
}

thread_local! {
    /// What was heard so far, none where nobody listens.
    static HEARD: RefCell<Option<Vec<Ignored>>> = const { RefCell::new(None) };
}

/// Runs something, and gives what this thread passed over meanwhile, in order.
pub fn listen<T>(run: impl FnOnce() -> T) -> (T, Vec<Ignored>) {
    let before = HEARD.replace(Some(Vec::new()));
    let given = run();
    let heard = HEARD.replace(before);
    (given, heard.unwrap_or_default())
}

/// For [`warn!`] alone.
#[doc(hidden)]
pub fn ignored(directive: &dyn Display, value: &dyn Display, reason: &dyn Display) {
    HEARD.with_borrow_mut(|heard| {
        if let Some(heard) = heard {
            heard.push(Ignored {
                directive: directive.to_string(),
                value: value.to_string(),
                reason: reason.to_string(),
            });
        }
    });
}

/// Drops a message.
#[macro_export]
macro_rules! debug {
    ($($message:tt)*) => {};
}

/// Hands on what is said of an unsupported directive that is passed over. Drops any other message, also the one of a target that
/// can't be read: its directive is supported.
#[macro_export]
macro_rules! warn {
    (
        directive = %$directive:expr,
        value = %$value:expr,
        reason = %$reason:expr,
        "ignoring unsupported ctl directive"
    ) => {
        $crate::ignored(&$directive, &$value, &$reason)
    };
    ($($message:tt)*) => {};
}

/// Drops a message.
#[macro_export]
macro_rules! error {
    ($($message:tt)*) => {};
}
