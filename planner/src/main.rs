//! The planner's desk, from the command line.

use std::process::ExitCode;

fn main() -> ExitCode {
    planner::commands::run(std::env::args_os().skip(1))
}
