//! Makes keys, signs, checks and hashes, from files to files.
//!
//! Status 0 is done, 1 is a refusal of 01, 2 is bad use or a file that can't
//! be read or written. A file is written only when the call is done.

use std::fs;
use std::io::{self, Write};
use std::process::ExitCode;

use second::cases;
use second::refusal::Refusal;
use second::replay::{replay, Second};
use second::scheme::{check, make_keys, sign};
use second::set::{PUBLIC_KEY, SECRET_KEY, SIGNATURE};
use second::shake::Absorb;

const HELP: &str = "\
second make-keys ZETA ZETA' PK SK     make a key pair from two files of 32 bytes; prints the refusal number
second sign SK MESSAGE LIMIT SIG      sign; prints the refusal number and the count of tries
second check PK SIG MESSAGE           check; prints the refusal number
second shake IN OUTLEN                print OUTLEN bytes of SHAKE256 in hex
second vectors FILE                   write the vector file of VECTORS.md; prints what it has
second replay FILE                    hold this program to a vector file; prints what it has
second help                           print this
";

enum Failure {
    Use(String),
    Refused(Refusal),
}

impl From<Refusal> for Failure {
    fn from(refusal: Refusal) -> Failure {
        Failure::Refused(refusal)
    }
}

fn main() -> ExitCode {
    // A name of a file need not be text, but the names here are shown in
    // errors, so other names are read as well as they can be.
    let arguments: Vec<String> =
        std::env::args_os().skip(1).map(|argument| argument.to_string_lossy().into_owned()).collect();
    let arguments: Vec<&str> = arguments.iter().map(String::as_str).collect();
    match run(&arguments) {
        Ok(()) => ExitCode::SUCCESS,
        Err(Failure::Refused(refusal)) => {
            eprintln!("second: refused, number {}: {:?}", refusal.number(), refusal);
            ExitCode::from(1)
        }
        Err(Failure::Use(text)) => {
            eprintln!("second: {text}");
            ExitCode::from(2)
        }
    }
}

fn run(arguments: &[&str]) -> Result<(), Failure> {
    match arguments {
        ["make-keys", zeta, zeta_prime, public_key, secret_key] => {
            run_make_keys(zeta, zeta_prime, public_key, secret_key)
        }
        ["sign", secret_key, message, limit, signature] => run_sign(secret_key, message, limit, signature),
        ["check", public_key, signature, message] => run_check(public_key, signature, message),
        ["shake", input, length] => run_shake(input, length),
        ["vectors", file] => run_vectors(file),
        ["replay", file] => run_replay(file),
        ["help"] => say(HELP),
        [] => Err(Failure::Use("no subcommand; try: second help".into())),
        [name @ ("make-keys" | "sign" | "check" | "shake" | "vectors" | "replay" | "help"), ..] => {
            Err(Failure::Use(format!("wrong count of arguments for {name}; try: second help")))
        }
        [name, ..] => Err(Failure::Use(format!("unknown subcommand {name}; try: second help"))),
    }
}

fn run_make_keys(zeta: &str, zeta_prime: &str, public_key: &str, secret_key: &str) -> Result<(), Failure> {
    let zeta = read(zeta)?;
    let zeta_prime = read(zeta_prime)?;
    let mut public = [0; PUBLIC_KEY];
    let mut secret = [0; SECRET_KEY];
    let answer = make_keys(&zeta, &zeta_prime, &mut public, &mut secret);
    if answer.is_ok() {
        write(public_key, &public)?;
        write(secret_key, &secret)?;
    }
    say(&format!("{}\n", number(answer.err())))?;
    Ok(answer?)
}

fn run_sign(secret_key: &str, message: &str, limit: &str, signature: &str) -> Result<(), Failure> {
    let limit: u32 = count(limit, "LIMIT")?;
    let secret_key = read(secret_key)?;
    let message = read(message)?;
    let mut bytes = [0; SIGNATURE];
    let answer = sign(&secret_key, &message, limit, &mut bytes);
    if answer.refusal.is_none() {
        write(signature, &bytes)?;
    }
    say(&format!("{} {}\n", number(answer.refusal), answer.tries))?;
    answer.refusal.map_or(Ok(()), |refusal| Err(refusal.into()))
}

fn run_check(public_key: &str, signature: &str, message: &str) -> Result<(), Failure> {
    let answer = check(&read(public_key)?, &read(signature)?, &read(message)?);
    say(&format!("{}\n", number(answer.err())))?;
    Ok(answer?)
}

fn run_shake(input: &str, length: &str) -> Result<(), Failure> {
    let mut left: u64 = count(length, "OUTLEN")?;
    let mut output = Absorb::new().part(&read(input)?).done();
    // Printed block by block, so that any length fits in memory.
    let mut block = [0; 4096];
    while left > 0 {
        let now = left.min(block.len() as u64) as usize;
        output.next(&mut block[..now]);
        say(&block[..now].iter().map(|byte| format!("{byte:02x}")).collect::<String>())?;
        left -= now as u64;
    }
    say("\n")
}

fn run_vectors(path: &str) -> Result<(), Failure> {
    let (file, has) = cases::file();
    write(path, &file)?;
    let [keys, signing, checks, patches] = has.counts;
    say(&format!(
        "{path}: {} bytes; {keys} records of key making, {signing} of signing, {checks} of checking, {patches} patches\n\
         {} signatures, {} of them whole; {} run out of tries; {} tries in all, at most {} in a call; {} damaged inputs\n",
        file.len(),
        has.signatures,
        has.whole,
        has.spent,
        has.tries,
        has.most_tries,
        has.damaged
    ))
}

fn run_replay(path: &str) -> Result<(), Failure> {
    let [keys, signing, checks, patches] =
        replay(&read(path)?, &mut Second).map_err(|why| Failure::Use(format!("{path}: {why}")))?;
    say(&format!(
        "{path}: {keys} records of key making, {signing} of signing, {checks} of checking, {patches} patches: as expected\n"
    ))
}

fn number(refusal: Option<Refusal>) -> u8 {
    refusal.map_or(0, |refusal| refusal.number())
}

fn count<T: std::str::FromStr>(text: &str, name: &str) -> Result<T, Failure> {
    text.parse().map_err(|_| Failure::Use(format!("{name} is not a count: {text}")))
}

fn read(path: &str) -> Result<Vec<u8>, Failure> {
    fs::read(path).map_err(|error| Failure::Use(format!("can't read {path}: {error}")))
}

fn write(path: &str, bytes: &[u8]) -> Result<(), Failure> {
    fs::write(path, bytes).map_err(|error| Failure::Use(format!("can't write {path}: {error}")))
}

/// A closed pipe is an error like any other here, where print! would panic.
fn say(text: &str) -> Result<(), Failure> {
    let mut output = io::stdout().lock();
    output
        .write_all(text.as_bytes())
        .and_then(|()| output.flush())
        .map_err(|error| Failure::Use(format!("can't write to standard output: {error}")))
}
