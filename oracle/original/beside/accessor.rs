//! Stand-in for the value log's accessor: a name that vlog/mod.rs passes on and nothing here uses.

pub struct Accessor;
