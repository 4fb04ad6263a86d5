//! Stands in for src/actions/flow.rs. The published files use nothing of it:
//! skip, skipAfter and chain are read in actions/mod.rs and acted upon in
//! engine/transaction.rs.
