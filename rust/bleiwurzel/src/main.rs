//! The command-line tool: `bleiwurzel --help`.

mod cli;

use std::process::ExitCode;

fn main() -> ExitCode {
    ExitCode::from(cli::run(|| cli::command(std::env::args_os().skip(1).collect())))
}
