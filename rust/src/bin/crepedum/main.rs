//! The command `crepedum`: member sets measured, written, shown and looked up.

mod args;
mod fault;
mod files;
mod json;
mod lead;
mod look;
mod show;
mod table;
mod text;
mod total;
mod view;
mod write;

use std::ffi::OsString;
use std::process::ExitCode;

use args::Form;
use fault::Fault;

const HELP: &str = "\
usage: crepedum total LIST --machine MACHINE
       crepedum write LIST --machine MACHINE [-o SET] [--members DIR]
       crepedum show SET|MEMBER [--json]
       crepedum lookup SET SYMBOL [--list 1|2]
       crepedum COMMAND --help

Writes the members of Windows import libraries, tells their total first, shows them, and says where symbols lead.
A file named - is standard input or standard output.

exit status: 0; the refusal's number, 1 to 17; 64 for a wrong use; 74 for a file that can't be read or written
";

type Run = fn(&args::Words) -> Result<(), Fault>;

const COMMANDS: [(&Form, Run); 4] = [
    (&total::FORM, total::run),
    (&write::FORM, write::run),
    (&show::FORM, show::run),
    (&look::FORM, look::run),
];

fn run(words: &[OsString]) -> Result<(), Fault> {
    let Some((name, rest)) = words.split_first() else {
        return Err(Fault::Usage(format!("no command\n{HELP}")));
    };
    if name == "--help" || name == "-h" {
        return files::print(HELP.as_bytes());
    }
    let command = COMMANDS.iter().find(|(form, _)| name == form.name);
    let Some((form, command)) = command else {
        let name = name.display();
        return Err(Fault::Usage(format!("no command is `{name}`\n{HELP}")));
    };
    match args::Words::of(form, rest)? {
        None => files::print(form.help.as_bytes()),
        Some(words) => command(&words),
    }
}

fn main() -> ExitCode {
    let words: Vec<OsString> = std::env::args_os().skip(1).collect();
    match run(&words) {
        Ok(()) => ExitCode::SUCCESS,
        Err(fault) => {
            eprintln!("crepedum: {fault}");
            ExitCode::from(fault.status())
        }
    }
}
