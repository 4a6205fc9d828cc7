//! A plain engine: it reads a capture as snort does, for the configurations and rules that tools/measure/traffic writes,
//! and writes the same alert lines. It is there to be measured beside snort (tools/measure/plain_speed), and is written as
//! one would write it for speed in plain Rust: the standard library alone, safe code, one thread, no proofs.
//!
//!     plain -q -c CONF -r CAPTURE
//!
//! It refuses, with a sentence and status 1, what these configurations and captures don't have.
#![forbid(unsafe_code)]

mod automaton;
mod capture;
mod config;
mod decode;
mod detect;
mod engine;
mod events;
mod fragments;
mod lru;
mod pieces;
mod rules;
mod sessions;
mod streams;

use std::io::Write;

/// The configuration and the capture that the words name.
fn files() -> Result<(String, String), String> {
    let (mut configuration, mut capture) = (None, None);
    let mut words = std::env::args().skip(1);
    while let Some(word) = words.next() {
        match word.as_str() {
            "-q" => {}
            "-c" => configuration = words.next(),
            "-r" => capture = words.next(),
            _ => return Err(format!("unknown word: {word}")),
        }
    }
    configuration.zip(capture).ok_or_else(|| "plain -q -c CONF -r CAPTURE".to_string())
}

fn run() -> Result<(), String> {
    let (configuration, capture) = files()?;
    let text = std::fs::read_to_string(&configuration).map_err(|fault| format!("{configuration}: {fault}"))?;
    let (settings, rules) = config::read(&text).map_err(|why| format!("{configuration}: {why}"))?;
    let mut capture = capture::Capture::open(&capture)?;
    let mut engine = engine::Engine::new(&settings, rules);
    let read = engine.run(&mut capture);
    engine.finish()?;
    read
}

fn main() {
    if let Err(why) = run() {
        let _ = writeln!(std::io::stderr(), "plain: {why}");
        std::process::exit(1);
    }
}
