//! The command line: play a trace, turn a script into a trace and back, say what a script comes to
//! and what looks wrong in it, compare a proved program with the model, answer the worked cases,
//! write the samples, generate traces, time the proved code.

mod commands;

use commands::{bench, compare, convert, generate, play, show, Failure};
use independent::compare::answers::ANSWERS;
use independent::compare::players::PLAYERS;
use independent::compare::scripts::CONVERTERS;
use std::ffi::OsString;
use std::io::Write;
use std::path::Path;
use std::process::ExitCode;

const USAGE: &str = "use: independent play FILE | cases | samples FOLDER | \
convert trace board|sheet ADDRESS SCRIPT OUT PART | convert text TRACE | convert start TRACE | \
show [--json] [--sheet] ADDRESS SCRIPT | show [--json] TRACE | \
check [--json] [--sheet] ADDRESS SCRIPT | check [--json] TRACE | \
compare PLAYER [--seed S] [--count N] [--keep DIR] [--tally] | \
compare-scripts CONVERT [--seed S] [--count N] [--keep DIR] [--tally] | \
compare-answers SHOW [--seed S] [--count N] [--keep DIR] [--tally] | \
generate SEED KIND OUT | generate SEED large RECORDS OUT | bench PLAYER";

fn main() -> ExitCode {
    let arguments: Vec<OsString> = std::env::args_os().skip(1).collect();
    let (text, code) = match run(&arguments) {
        Ok(()) => return ExitCode::SUCCESS,
        Err(Failure::Call(text)) => (text, 2),
        Err(Failure::Work(text)) => (text, 1),
    };
    if !text.is_empty() {
        let _ = writeln!(std::io::stderr(), "{text}");
    }
    ExitCode::from(code)
}

fn run(arguments: &[OsString]) -> Result<(), Failure> {
    let (command, rest) = match arguments.split_first() {
        Some((command, rest)) => (command.to_string_lossy(), rest),
        None => return Err(Failure::Call(USAGE.into())),
    };
    match (command.as_ref(), rest) {
        ("play", [file]) => play::run(Path::new(file)),
        ("cases", []) => compare::print_cases(),
        ("samples", [folder]) => generate::samples(Path::new(folder)),
        ("convert", [what, start, address, script, out, _part]) if what == "trace" => {
            convert::trace(start, address, Path::new(script), Path::new(out))
        }
        ("convert", [what, trace]) if what == "text" => convert::text(Path::new(trace)),
        ("convert", [what, trace]) if what == "start" => convert::start(Path::new(trace)),
        ("show", arguments) => show::show(arguments),
        ("check", arguments) => show::check(arguments),
        ("compare", [player, options @ ..]) => compare::run(&PLAYERS, player, options),
        ("compare-scripts", [converter, options @ ..]) => {
            compare::run(&CONVERTERS, converter, options)
        }
        ("compare-answers", [program, options @ ..]) => compare::run(&ANSWERS, program, options),
        ("generate", [seed, kind, out]) => generate::one(seed, kind, Path::new(out)),
        ("generate", [seed, kind, records, out]) if kind == "large" => {
            generate::large(seed, records, Path::new(out))
        }
        ("bench", [player]) => bench::run(player),
        _ => Err(Failure::Call(USAGE.into())),
    }
}
