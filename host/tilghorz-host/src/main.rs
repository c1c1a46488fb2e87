//! The command `tilghorz-host`: formats, reports, fixes and shows the emoji selectors of texts, and repairs damaged texts.
//!
//! `tilghorz-host help` has the commands. Everything that matters is in the library `tilghorz`; here are the command
//! line, files, folders and standard input, and what a person reads. What is unsafe of it stands in the module `system`.

#![deny(unsafe_code)]
#![warn(missing_docs)]

mod arguments;
mod by_threads;
mod carry;
mod completions;
mod console;
mod cutter;
mod diff;
mod findings;
mod fix;
mod follow;
mod format;
mod glob;
mod help;
mod help_texts;
mod ignore;
mod in_order;
mod in_parts;
mod intake;
mod interrupt;
mod json;
mod man;
mod options;
mod page;
mod place;
mod policy;
mod repair;
mod replace;
mod report;
mod rewriting;
mod sha256;
mod sheet;
mod show;
mod source;
mod split;
mod system;
mod tally;
mod threads;
mod tips;
mod view;
mod visible;
mod walk;
mod width_table;
mod words;
mod work;

use std::env;
use std::io::{self, ErrorKind, Write};
use std::process::ExitCode;

use arguments::Command;
use console::{Console, Status};

fn main() -> ExitCode {
    let mut console = Console::new();
    let status = match arguments::parse(env::args_os().skip(1)) {
        Err(fault) => {
            console.complain(&fault);
            Status::Fault
        }
        Ok(command) => finish(run(&command, &mut console), &mut console),
    };
    ExitCode::from(status as u8)
}

/// Does what the command line asks. An error is one of standard output.
fn run(command: &Command, console: &mut Console) -> io::Result<Status> {
    match command {
        Command::Help(topic) => console.print(topic.text()),
        Command::Version => console.print(&help::version()),
        Command::Format(format) => format.run(console),
        Command::Repair(repair) => repair.run(console),
        Command::Follow(follow) => follow.run(console),
        Command::InParts(in_parts) => in_parts.run(console),
        Command::Split(split) => split.run(console),
        Command::Report(report) => report.run(console),
        Command::Fix(fix) => fix.run(console),
        Command::Show(show) => show.run(console),
        Command::Page(page) => page.run(console),
        Command::Policy(policy) => policy.run(console),
        Command::Completions(shell) => console.print(&shell.completions()),
        Command::Man => console.print(&man::page()),
    }
}

/// Writes out what is left. A reader that has gone away is told nothing: there is nobody to tell.
fn finish(status: io::Result<Status>, console: &mut Console) -> Status {
    match status.and_then(|status| console.out.flush().map(|()| status)) {
        Ok(status) => status,
        Err(error) => {
            if error.kind() != ErrorKind::BrokenPipe {
                console.complain(&format_args!("standard output: {error}"));
            }
            Status::Fault
        }
    }
}
