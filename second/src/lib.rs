//! An independent second program, written from the papers alone: document 01,
//! the rules, and document 02, the requests, of which L2 and L5 are in it; and
//! the desk's programs, trace and field list, by the page of the requests.
//!
//! It holds the whole record in memory, collects all accepted samples first
//! and only then drives the run over them, cycle by cycle.
//!
//! The rules:      `cycle`, `run`, `shortened`, `phase`, `method`, `closing`,
//!                 `record`, `field`, `bench`.
//! The texts:      `sheet`, `trace`, `listing`, `line`, `what`.
//! Made records:   `make` and the modules it calls.
//! The comparison: `compare`, `survey`.

pub mod bench;
pub mod closing;
pub mod cycle;
pub mod field;
pub mod method;
pub mod phase;
pub mod record;
pub mod run;
pub mod shortened;

pub mod line;
pub mod listing;
pub mod sheet;
pub mod trace;
pub mod what;

pub mod ask;
pub mod breakage;
pub mod brink;
pub mod chance;
pub mod corners;
pub mod draft;
pub mod drive;
pub mod faults;
pub mod full;
pub mod long;
pub mod make;
pub mod million;
pub mod nearby;
pub mod recharge;
pub mod slowing;
pub mod small;
pub mod wish;
pub mod write;

pub mod command;
pub mod compare;
pub mod stream;
pub mod survey;
