//! Asking the library at its boundary. Every question is put twice, to the raw function and through the safe wrapper;
//! what comes back, what is lent and what was handed over is held to what document 01 wants.

pub mod answer;
pub mod framed;
pub mod kind;
pub mod lent;
pub mod question;
pub mod raw;
pub mod safe;
pub mod wanted;

use lent::Lent;
use std::panic::catch_unwind;
use wanted::Asked;

/// What is not as wanted, where something is not. The wrapper can only repeat what the raw function gets wrong.
pub fn disagreement((question, wanted): &Asked) -> Option<String> {
    let after = wanted.leaves(Lent::with(question));
    let by_raw = || raw::ask(question).disagreement(wanted, &after);
    let through_wrapper = || match catch_unwind(|| safe::ask(question)) {
        Ok(told) => told?.disagreement(wanted, &after),
        Err(_) => Some("the wrapper panics".to_string()),
    };
    by_raw().or_else(through_wrapper).map(|what| format!("{question}\n    wanted {wanted:?}; {what}"))
}
