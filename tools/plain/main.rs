// The plain program: an independent judge of the operations. Commands and help.

mod answers;
mod answers_flags;
mod answers_parts;
mod attributes;
mod big;
mod cases;
mod cases_by_kind;
mod commands;
mod draws_next;
mod draws_numerals;
mod draws_rounded;
mod draws_rounded_single;
mod draws_several;
mod draws_single;
mod format;
mod forms;
mod grids;
mod grids_numerals;
mod library;
mod library_numerals;
mod lines;
mod numerals;
mod operands;
mod operations;
mod options;
mod random;
mod rounding;
mod sets;
mod witness;
mod witness_numerals;

use commands::Trouble;
use options::{read_options, Wanted};
use std::io::{BufWriter, Write};
use std::process::ExitCode;

const HELP: &str = "\
plain-program: answers and checks the operations by exact whole numbers

  answer FILE|-                answer every request line
  check FILE|-                 check every claim
  cases --seed N --count K [--operation OP]
                               print boundary cases with their answers
  cases --flags [--requests] --seed N --count K [--operation OP]
                               cases by kinds for all that answers flags, with
                               and without an attribute
  cases --flags [--requests] --all --operation OP
                               all patterns of 16 bits
  cases --numerals [--requests] --seed N --count K [--operation OP]
                               texts to read and patterns to write, by kinds
  witness --seed N --count K   hold the judge against the C library

Each command has --help. Lines are those of docs/LINES.md.
Exit status: 0 all well, 1 something found, 2 bad usage or unreadable file.
";

const ANSWER_HELP: &str = "\
answer FILE|-

Writes every request line of FILE (- is standard input) with its answer.
A claim after -> is passed over, and so are comments and empty lines.
A malformed line is reported on standard error as FILE:LINE: error: ...
It answers all operations of docs/LINES.md, with 64, 32 or 16 for W:

  sqrtW X           -> R FLAGS        sqrtW.A X         -> NUMBER R FLAGS
  fmaW X Y Z        -> R FLAGS        fmaW.A X Y Z      -> NUMBER R FLAGS
  scalbnW X N       -> R FLAGS        scalbnW.A X N     -> NUMBER R FLAGS
  floorW X          -> R FLAGS        truncW X          -> R FLAGS
  ceilW X           -> R FLAGS
  readW TEXT        -> NUMBER R       readW.A TEXT      -> NUMBER R
  writeW X ROOM     -> NUMBER LENGTH TEXT, or 8 0

and fmod, remquo, reduce, list, modf, frexp, ilogb and nextafter, which have no
flags. Without an attribute a result is rounded to nearest even, and worked out
in two ways that must agree.
A is the rounding attribute: even, zero, down, up or away, or its number, 0 to
4 in this order. Under any other number NUMBER is 10, R zero and FLAGS OK. Of a
text over 64 bytes it is 6, of one outside the grammar 7, of a room too small 8;
else NUMBER is 0. FLAGS is OK, or the flags raised joined by +, in this order:
INVALID, DIVBYZERO, OVERFLOW, UNDERFLOW, INEXACT. Tininess is judged after
rounding.
Exit status: 0, or 1 if a line was malformed, or 2 for bad usage.
";

const CHECK_HELP: &str = "\
check FILE|-

Checks every claim of FILE (- is standard input) and prints each disagreement
with its line number and both answers, then counts for each operation without
an attribute, and for each name with an attribute that had claims; an attribute
that is a number is counted under NUMBER, as in sqrt64.NUMBER. The last line
but one counts the claims by the flags in the right answers. A request without
a claim counts as malformed. Answers are compared bit for bit.
Exit status: 0 if every claim is right and there is one, or 1 for a
disagreement, a malformed line or no claim at all, or 2 for bad usage.
";

const CASES_HELP: &str = "\
cases --seed N --count K [--operation OP]
cases --flags [--requests] --seed N --count K [--operation OP]
cases --flags [--requests] --all --operation OP
cases --numerals [--requests] --seed N --count K [--operation OP]

Prints request lines with answers for every operation of 64 and 32 bits without
an attribute, but for numerals, or for OP alone: first a grid (every pair of operand classes, for
fma in each two places and further triples as far as K reaches; the thresholds
of scalbn; both sides of every refusal; for frexp and ilogb subnormal numbers of
every length), then K drawn boundary cases. So each operation has at least K
lines. No request comes twice. The same seed and count give the same lines. N is
a decimal number below 2^64, K at least 1.

  --flags     every name whose answer has flags: sqrt, fma, scalbn, floor, trunc
              and ceil of 64, 32 and 16 bits, the first three under each
              attribute too: for each a small grid, then K drawn cases from its
              kinds in turn. Comments at the end name the kinds and count their
              lines.
              For sqrt, fma and scalbn at each width there are nine lines with
              the attribute as a number, four of them refused. OP is one name,
              as fma64, sqrt64.up or sqrt64.3, or sqrt64.A for all attributes.
              There are fewer than K where the kinds have no more that was not
              there.
  --numerals  the same of read, with and without an attribute, and of write, at
              64, 32 and 16 bits. The grid has each rule of the grammar broken
              at several places, 63 to 66 bytes, where an attribute turns, and
              rooms that just fit and are a byte too small.
  --requests  requests without answers; one may come twice, and none is kept
              in mind, so K may be any number: a million take a second or two
  --all       all 65,536 patterns; OP is a name of sqrt16, floor16, trunc16 or
              ceil16, or sqrt16.A
Exit status: 0, or 2 for bad usage.
";

const WITNESS_HELP: &str = "\
witness --seed N --count K

Holds K requests for each operation against a second computation: the C
library's functions (any two NaNs equal, remquo's quotient by sign and modulo
8, and flags by fenv.h), for the reduction doubling step by step, for the list
call the C library in each place, for each name under even the search among the
neighbours; at 16 bits the two ways to each answer alone. What answers flags
gets K requests more, from its kinds in turn. Also checks the program's own
division.
Flags are left out where the C library is free: floor, trunc and ceil go by
rint; where the processor judges tininess before rounding, underflow of a result
that is the least normal number; 0 times infinity plus a quiet NaN. So are the
exponents that it is free in: ilogb's of zeros and NaNs, frexp's of infinities
and NaNs.
Of numerals there are K texts of the grammar for each width and attribute that
strtod and strtof have, and K patterns that printf writes by %a and that are read
back under every attribute; and K of each at 64 bits beside Python's
float.fromhex and float.hex, where python3 is there. Of a number below the least
normal one with one binary digit more than a significand glibc 2.36 leaves that
digit out: such texts are counted, one is named, and none is a disagreement.
N is a decimal number below 2^64, K at least 1.
Exit status: 0, or 1 for a disagreement, or 2 for bad usage.
";

/// How a command ended, short of trouble: whether all was well.
type Outcome = Result<bool, Trouble>;

enum Ending {
    Done(Outcome),
    Help(&'static str),
    Usage(String),
}

fn main() -> ExitCode {
    let arguments: Vec<String> =
        std::env::args_os().skip(1).map(|one| one.to_string_lossy().into_owned()).collect();
    let texts: Vec<&str> = arguments.iter().map(String::as_str).collect();
    match run(&texts) {
        Ending::Done(Ok(true)) => ExitCode::SUCCESS,
        Ending::Done(Ok(false)) => ExitCode::from(1),
        Ending::Done(Err(Trouble::Reading(what))) => complain(&what),
        Ending::Done(Err(Trouble::Writing(error))) => complain(&format!("cannot write: {error}")),
        Ending::Help(text) => match std::io::stdout().write_all(text.as_bytes()) {
            Ok(()) => ExitCode::SUCCESS,
            Err(error) => complain(&format!("cannot write: {error}")),
        },
        Ending::Usage(what) => complain(&format!("{what}; see --help")),
    }
}

fn complain(what: &str) -> ExitCode {
    eprintln!("plain-program: error: {what}");
    ExitCode::from(2)
}

fn run(arguments: &[&str]) -> Ending {
    let (command, rest) = match arguments {
        [] => return Ending::Usage("expected a command".to_string()),
        ["--help" | "-h" | "help", ..] => return Ending::Help(HELP),
        [command, rest @ ..] => (*command, rest),
    };
    let help = match command {
        "answer" => ANSWER_HELP,
        "check" => CHECK_HELP,
        "cases" => CASES_HELP,
        "witness" => WITNESS_HELP,
        _ => return Ending::Usage(format!("no command \"{command}\"")),
    };
    if rest.iter().any(|one| matches!(*one, "--help" | "-h")) {
        return Ending::Help(help);
    }
    match command {
        "answer" | "check" => on_file(command, rest),
        _ => on_seed(command, rest),
    }
}

fn on_file(command: &str, rest: &[&str]) -> Ending {
    let [path] = rest else {
        return Ending::Usage(format!("{command} takes one FILE, or - for standard input"));
    };
    if path.starts_with('-') && *path != "-" {
        return Ending::Usage(format!("{command}: no option \"{path}\""));
    }
    with_output(|out| match command {
        "answer" => commands::answer(path, out),
        _ => commands::check(path, out),
    })
}

fn on_seed(command: &str, rest: &[&str]) -> Ending {
    let wanted = match read_options(command, rest) {
        Ok(wanted) => wanted,
        Err(what) => return Ending::Usage(what),
    };
    with_output(|out| match (command, wanted) {
        ("witness", Wanted::Plain(seed, count, _)) => {
            Ok(witness::run(seed, count, out).map(|found| found == 0)?)
        }
        (_, Wanted::Plain(seed, count, chosen)) => {
            Ok(cases::print_cases(seed, count, &chosen, out).map(|()| true)?)
        }
        (_, Wanted::Kinds { set, seed, count, chosen, answers }) => {
            let run = (seed, count);
            Ok(cases_by_kind::print(set, run, &chosen, answers, out).map(|()| true)?)
        }
        (_, Wanted::All { chosen, answers }) => {
            Ok(cases_by_kind::print_all(&chosen, answers, out).map(|()| true)?)
        }
    })
}

fn with_output(command: impl FnOnce(&mut dyn Write) -> Outcome) -> Ending {
    let mut out = BufWriter::new(std::io::stdout());
    let outcome = command(&mut out);
    // A disagreement that could not be written must not pass as all well.
    match out.flush() {
        Ok(()) => Ending::Done(outcome),
        Err(error) => Ending::Done(outcome.and(Err(Trouble::Writing(error)))),
    }
}
