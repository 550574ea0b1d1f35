//! Command lines, standard input and output, and how a program ends.

use crate::lines::Line;
use crate::oracle::Oracle;
use crate::random::Random;
use std::env;
use std::io::{self, BufReader, BufWriter, Read, Write};
use std::process::ExitCode;

/// Why a program stopped early.
pub enum Stop {
    /// The command line is wrong.
    Usage(String),
    /// The input is wrong.
    Input(String),
    Io(io::Error),
}

impl From<io::Error> for Stop {
    fn from(error: io::Error) -> Self {
        Stop::Io(error)
    }
}

/// Runs a program that answers records: its only arguments are options, among them the choice of functions.
pub fn answer(
    usage: &str,
    options: &[&str],
    body: impl FnOnce(&Oracle, &[String], &mut dyn Read, &mut dyn Write) -> Result<(), Stop>,
) -> ExitCode {
    run(usage, |arguments, output| {
        let (oracle, given) = parse_options(arguments, options)?;
        let mut input = BufReader::with_capacity(1 << 16, io::stdin().lock());
        body(&oracle, &given, &mut input, output)
    })
}

/// Answers each record by a line.
pub fn answer_each<T>(
    input: &mut dyn Read,
    output: &mut dyn Write,
    read: impl Fn(&mut dyn Read, usize) -> Result<Option<T>, Stop>,
    show: impl Fn(T, &mut Line),
) -> Result<(), Stop> {
    let mut line = Line::default();
    let mut number = 1;
    while let Some(record) = read(input, number)? {
        show(record, &mut line);
        line.end(output)?;
        number += 1;
    }
    Ok(())
}

/// Writes one generated record.
pub type Writer = Box<dyn Fn(&mut Random, &mut dyn Write) -> io::Result<()>>;

/// Runs a generator: its arguments are SEED, KIND and COUNT.
pub fn generate(usage: &str, writer_of: impl FnOnce(&str) -> Option<Writer>) -> ExitCode {
    run(usage, |arguments, output| {
        let [seed, kind, count] = arguments else {
            return Err(usage_error("three arguments are needed"));
        };
        let write = writer_of(kind).ok_or_else(|| usage_error(&format!("`{kind}` is no kind")))?;
        let mut random = Random::new(number("SEED", seed)?);
        for _ in 0..number("COUNT", count)? {
            write(&mut random, output)?;
        }
        Ok(())
    })
}

/// Runs a program whose arguments are SEED and COUNT.
pub fn count(
    usage: &str,
    body: impl FnOnce(u64, u64, &mut dyn Write) -> Result<(), Stop>,
) -> ExitCode {
    run(usage, |arguments, output| {
        let [seed, count] = arguments else {
            return Err(usage_error("two arguments are needed"));
        };
        body(number("SEED", seed)?, number("COUNT", count)?, output)
    })
}

fn parse_options(arguments: &[String], options: &[&str]) -> Result<(Oracle, Vec<String>), Stop> {
    let mut choice = "exact".to_string();
    let mut given = Vec::new();
    let mut rest = arguments.iter();
    while let Some(argument) = rest.next() {
        if argument == "--functions" {
            let value = rest
                .next()
                .ok_or_else(|| usage_error("--functions needs a value"))?;
            choice.clone_from(value);
        } else if options.contains(&argument.as_str()) {
            given.push(argument.clone());
        } else {
            return Err(usage_error(&format!("`{argument}` is not an option")));
        }
    }
    let oracle = Oracle::named(&choice).ok_or_else(|| {
        usage_error(&format!(
            "--functions is one of {}, not `{choice}`",
            Oracle::CHOICES
        ))
    })?;
    Ok((oracle, given))
}

/// Runs a program on its arguments and a buffered standard output.
fn run(usage: &str, body: impl FnOnce(&[String], &mut dyn Write) -> Result<(), Stop>) -> ExitCode {
    let arguments: Vec<String> = env::args().skip(1).collect();
    let mut output = BufWriter::with_capacity(1 << 16, io::stdout().lock());
    let done = body(&arguments, &mut output);
    let flushed = output.flush().map_err(Stop::Io);
    match done.and(flushed) {
        Ok(()) => ExitCode::SUCCESS,
        Err(stop) => report(usage, stop),
    }
}

fn report(usage: &str, stop: Stop) -> ExitCode {
    match stop {
        Stop::Usage(message) => {
            eprintln!("{message}\nusage: {usage}");
            ExitCode::from(2)
        }
        Stop::Input(message) => {
            eprintln!("{message}");
            ExitCode::FAILURE
        }
        // Whoever reads the output has seen enough.
        Stop::Io(error) if error.kind() == io::ErrorKind::BrokenPipe => ExitCode::SUCCESS,
        Stop::Io(error) => {
            eprintln!("input or output failed: {error}");
            ExitCode::FAILURE
        }
    }
}

fn usage_error(message: &str) -> Stop {
    Stop::Usage(message.to_string())
}

/// A whole number among the arguments.
fn number(name: &str, text: &str) -> Result<u64, Stop> {
    text.parse()
        .map_err(|_| usage_error(&format!("{name} is a whole number, not `{text}`")))
}
