//! The program `model`: one subcommand for each thing that the model is asked to do.

use rumbezalo_model::asked::{bounds, call_name, in_words};
use rumbezalo_model::requests::{self, Stream, LOAD, MALFORMED, POKE, SHOW};
use rumbezalo_model::variant::Variant;
use rumbezalo_model::{answer, cluster, hostile};
use std::collections::BTreeMap;
use std::io;
use std::process::ExitCode;
use std::time::Instant;

const USAGE: &str = "usage: model COMMAND [OPTION]...

commands:
  cluster   run honest clusters through random schedules, and check demand 3 at every quiet
            --schedules N   how many schedules (2000)
            --seed S        their seed (1)
            --first K       the first of them (0)
            --quiets N      fail unless at least so many quiets were checked (0)
  hostile   try every call on hostile tables, messages and numbers
            --tables N      how many tables (16000)
            --messages N    how many messages (80000)
            --seed S        their seed (1)
  requests  write requests for the program `calls`, and the answers that they must get
            --seed S        their seed (1)
            --count N       how many requests (3000)
            --codes A,B,..  ask only for calls with these codes, of 1 to 11 (all)
            --out FILE      where to write the requests
            --answers FILE  where to write the answers
            --malformed W   end with a request that is malformed: code, slot, padding, output,
                            payload, load, poke, header or cut
            --require       fail unless every answer that these calls can give is there, and
                            every bound that 16 and 17 stand for
  answer    answer the requests on standard input, as the program `calls` does
            --codes A,B,..  know only calls with these codes (all)
  help      print this text";

/// A command that was not understood, or a run that failed, in words.
enum Trouble {
    Usage(String),
    Failed(String),
}

fn main() -> ExitCode {
    let mut arguments = std::env::args().skip(1);
    let command = arguments.next().unwrap_or_default();
    let outcome = match command.as_str() {
        "cluster" => run_cluster(arguments),
        "hostile" => run_hostile(arguments),
        "requests" => run_requests(arguments),
        "answer" => run_answer(arguments),
        "help" => {
            println!("{USAGE}");
            Ok(())
        }
        other => Err(Trouble::Usage(format!("there is no command {other:?}"))),
    };
    match outcome {
        Ok(()) => ExitCode::SUCCESS,
        Err(Trouble::Usage(words)) => {
            eprintln!("model: {words}\n\n{USAGE}");
            ExitCode::from(2)
        }
        Err(Trouble::Failed(words)) => {
            eprintln!("model: {words}");
            ExitCode::FAILURE
        }
    }
}

// ---- options

/// The options of a command, by name.
struct Options {
    given: BTreeMap<String, String>,
}

impl Options {
    /// Reads `--name value`, for these names, and `--name` alone, for these flags.
    fn read(
        mut arguments: impl Iterator<Item = String>,
        names: &[&str],
        flags: &[&str],
    ) -> Result<Options, Trouble> {
        let mut given = BTreeMap::new();
        while let Some(name) = arguments.next() {
            let value = if flags.contains(&name.as_str()) {
                String::new()
            } else if names.contains(&name.as_str()) {
                let missing = || Trouble::Usage(format!("{name} needs a value"));
                arguments.next().ok_or_else(missing)?
            } else {
                return Err(Trouble::Usage(format!("there is no option {name:?}")));
            };
            given.insert(name, value);
        }
        Ok(Options { given })
    }

    /// The number given, or else the default.
    fn number(&self, name: &str, default: u64) -> Result<u64, Trouble> {
        let Some(text) = self.given.get(name) else {
            return Ok(default);
        };
        let wrong = |_| Trouble::Usage(format!("{name} {text:?} is no number"));
        text.parse().map_err(wrong)
    }

    /// The text given, which must be there.
    fn text(&self, name: &str) -> Result<&str, Trouble> {
        let missing = || Trouble::Usage(format!("{name} is missing"));
        self.given.get(name).map(String::as_str).ok_or_else(missing)
    }

    /// The codes given, or else all codes of calls.
    fn codes(&self) -> Result<Vec<u8>, Trouble> {
        let Some(text) = self.given.get("--codes") else {
            return Ok((1..=11).collect());
        };
        let code = |word: &str| word.parse().ok().filter(|code| (1..=11).contains(code));
        let codes: Option<Vec<u8>> = text.split(',').map(code).collect();
        codes.ok_or_else(|| Trouble::Usage(format!("--codes {text:?} are no codes of calls")))
    }
}

// ---- commands

fn run_cluster(arguments: impl Iterator<Item = String>) -> Result<(), Trouble> {
    let names = ["--schedules", "--seed", "--first", "--quiets"];
    let given = Options::read(arguments, &names, &[])?;
    let options = cluster::Options {
        schedules: given.number("--schedules", 2_000)?,
        seed: given.number("--seed", 1)?,
        first: given.number("--first", 0)?,
        variant: Variant::Right,
    };
    let began = Instant::now();
    let covered = cluster::run(&options).map_err(Trouble::Failed)?;
    println!("cluster, seed {}: {covered}", options.seed);
    println!("time: {:.1} s", began.elapsed().as_secs_f64());
    let reached = covered.reached(given.number("--quiets", 0)?);
    reached.map_err(|words| Trouble::Failed(format!("seed {}: {words}", options.seed)))
}

fn run_hostile(arguments: impl Iterator<Item = String>) -> Result<(), Trouble> {
    let given = Options::read(arguments, &["--tables", "--messages", "--seed"], &[])?;
    let options = hostile::Options {
        tables: given.number("--tables", 16_000)?,
        messages: given.number("--messages", 80_000)?,
        seed: given.number("--seed", 1)?,
    };
    let began = Instant::now();
    let tried = hostile::run(&options).map_err(Trouble::Failed)?;
    println!("hostile, seed {}: {tried}", options.seed);
    println!("time: {:.1} s", began.elapsed().as_secs_f64());
    let seed = options.seed;
    tried
        .complete()
        .map_err(|words| Trouble::Failed(format!("seed {seed}: {words}")))
}

fn run_requests(arguments: impl Iterator<Item = String>) -> Result<(), Trouble> {
    let names = [
        "--seed",
        "--count",
        "--codes",
        "--out",
        "--answers",
        "--malformed",
    ];
    let given = Options::read(arguments, &names, &["--require"])?;
    let malformed = given.given.get("--malformed").cloned();
    if let Some(what) = malformed
        .as_deref()
        .filter(|what| !MALFORMED.contains(what))
    {
        return Err(Trouble::Usage(format!(
            "no request is malformed by {what:?}"
        )));
    }
    let options = requests::Options {
        seed: given.number("--seed", 1)?,
        count: given.number("--count", 3_000)?,
        codes: given.codes()?,
        malformed,
    };
    let (out, answers) = (given.text("--out")?, given.text("--answers")?);
    let stream = requests::generate(&options).map_err(Trouble::Failed)?;
    write_file(out, &stream.requests)?;
    write_file(answers, &stream.answers)?;
    print_stream(&stream);
    if given.given.contains_key("--require") {
        let complete = complete(&stream, &options.codes);
        return complete
            .map_err(|words| Trouble::Failed(format!("seed {}: {words}", options.seed)));
    }
    Ok(())
}

/// Says whether every answer and bound that these calls can meet is in the stream.
fn complete(stream: &Stream, codes: &[u8]) -> Result<(), String> {
    let mut missing = vec![in_words(&stream.tally().missing(codes))];
    let bounds = stream.missing_bounds(codes).into_iter();
    missing.extend(bounds.map(|(code, bound)| format!("{} {bound:?}", call_name(code))));
    missing.retain(|words| !words.is_empty());
    match missing.is_empty() {
        true => Ok(()),
        false => Err(format!(
            "can be reached and is not in the stream: {}",
            missing.join(", ")
        )),
    }
}

fn write_file(path: &str, bytes: &[u8]) -> Result<(), Trouble> {
    let failed = |error| Trouble::Failed(format!("can't write {path}: {error}"));
    std::fs::write(path, bytes).map_err(failed)
}

/// Says what is in a stream, on standard error.
fn print_stream(stream: &Stream) {
    eprintln!(
        "{} requests in {} bytes, answers in {} bytes; by code:",
        stream.count(),
        stream.requests.len(),
        stream.answers.len()
    );
    for (code, count) in stream.codes() {
        let name = match code {
            LOAD => "load",
            POKE => "poke",
            SHOW => "show",
            code => call_name(code),
        };
        eprintln!("  {code:>2} {name:13}{count:>7}");
    }
    eprintln!("answers by number\n{}", stream.tally());
    let counts = bounds().map(|(code, bound)| (code, bound, stream.refused_for(code, bound)));
    let met = counts.filter(|&(_, _, count)| count > 0);
    let words = met.map(|(code, bound, count)| format!("{} {bound:?} {count}", call_name(code)));
    eprintln!(
        "refused for one bound alone: {}",
        words.collect::<Vec<_>>().join(", ")
    );
}

fn run_answer(arguments: impl Iterator<Item = String>) -> Result<(), Trouble> {
    let codes = Options::read(arguments, &["--codes"], &[])?.codes()?;
    let mut input = io::BufReader::new(io::stdin().lock());
    let mut output = io::BufWriter::new(io::stdout().lock());
    let served = answer::serve(&mut input, &mut output, &codes);
    served.map_err(|error| Trouble::Failed(format!("can't go on: {error}")))
}
