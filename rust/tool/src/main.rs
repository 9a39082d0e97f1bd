//! `meshpigeon`: judges Doom map files from the shell.
//!
//! Standard output has one line for each verdict, standard error the faults of reading and usage. The exit status is the worst
//! of what happened: see the folder `help`, which `--help` prints. All judging is the proved library's; this program reads files, asks,
//! and puts the answers into words.
#![forbid(unsafe_code)]
#![deny(missing_docs)]

mod about;
mod advice;
mod args;
mod atomic;
mod blockmap_words;
mod copy;
mod count;
mod crc;
mod descend;
mod diff;
mod encode;
mod extract;
mod field;
mod file_finding;
mod finding;
mod folder;
mod further;
mod help;
mod index;
mod index_finding;
mod input;
mod json;
mod judge;
mod list;
mod look;
mod lump_finding;
mod map_lumps;
mod name;
mod netpbm;
mod node_kind;
mod numbers;
mod options;
mod order;
mod output;
mod pair;
mod palette;
mod picture;
mod png;
mod progress;
mod record;
mod record_words;
mod renumber;
mod report;
mod shared;
mod sidedefs;
mod spool;
mod spot;
mod svg;
mod text;
mod text_fault;
mod text_fields;
mod text_token;
mod unnamed;
mod verdict;
mod wad;
mod why;

use args::{Command, IndexTask, Request};
use report::Report;
use std::process::ExitCode;

fn main() -> ExitCode {
    let request = match args::parse(std::env::args_os().skip(1).collect()) {
        Ok(request) => request,
        Err(misuse) => {
            report::complain(&format!("{misuse}\nTry 'meshpigeon help', or 'meshpigeon help COMMAND'."));
            return ExitCode::from(report::BAD_USAGE);
        }
    };
    let mut report = Report::new(request.json, request.quiet);
    run(&request, &mut report);
    ExitCode::from(report.finish())
}

fn run(request: &Request, report: &mut Report) {
    match &request.command {
        Command::Help(part) => report.text(part.trim_end()),
        Command::Version => report.text(concat!("meshpigeon ", env!("CARGO_PKG_VERSION"))),
        Command::Judge(task) => judge::run(task, report),
        Command::List { file, lookup: None } => list::run(file, report),
        Command::List { file, lookup: Some((name, index)) } => list::find(file, name, index, report),
        Command::Descend { file, map, x, y } => descend::run(file, map, (*x, *y), report),
        Command::Order { file, map, x, y, output } => order::run(file, map, (*x, *y), output.as_deref(), report),
        Command::Picture { file, base, lump, palette, output } => {
            picture::run(file, base.as_deref(), lump.as_deref(), palette.as_deref(), output, report);
        }
        Command::Encode { image, palette, offset, output } => encode::run(image, palette.as_deref(), *offset, output, report),
        Command::Sidedefs { sectors } => sidedefs::run(*sectors, report),
        Command::Text { file, map } => text::run(file, map, report),
        Command::Diff { old, new, maps, records } => diff::run(old, new, maps, *records, report),
        Command::Index { file, task: IndexTask::Write(output) } => index::write(file, output, report),
        Command::Index { file, task: IndexTask::Check(index) } => index::check(file, index, report),
        Command::Extract { file, name, output } => extract::run(file, name, output, report),
        Command::Spool(task) => spool::run(task, report),
        Command::Renumber { file, map, list, output } => renumber::run(file, map, list.as_deref(), output, report),
    }
}
