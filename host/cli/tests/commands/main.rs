//! The program as it is run: output, exit status, and what it leaves.

mod common;
mod compare;
mod mend;
mod morning;
mod opened;
mod picture;
mod plan;
mod program;
mod sessions;
mod settings;
