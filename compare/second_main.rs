//! The second program: traces from the files that are named, or one from standard input, to the answers on standard output.
//!
//!     second [FILE..]                             the answers
//!     second downlink FILE SAMPLES                those of a downlink trace, whose frames have 320 bytes of the file SAMPLES each
//!     second card [FILE..]                        those of a card's trace, whose lines name a channel each
//!     second totals [--after DIGITS] [FILE..]     for each file the line of its totals, after those that 40 digits write
//!     second why [--after NUMBER] [FILE..]        for each line why its frame was sent or not, after so many accepted frames
//!     second why [--after NUMBER] --samples SAMPLES [FILE..]    the same on the downlink
#[allow(dead_code)]
#[path = "second.rs"]
mod second;

use std::io::{Read, Write};

fn main() {
    let words: Vec<String> = std::env::args().skip(1).collect();
    let words: Vec<&str> = words.iter().map(|w| w.as_str()).collect();
    // forty zeros are also the number 0
    let nothing = "0".repeat(40);
    let (command, after, files) = match &words[..] {
        [command @ ("totals" | "why"), "--after", after, files @ ..] => (*command, *after, files),
        [command @ ("totals" | "why"), files @ ..] => (*command, nothing.as_str(), files),
        [command @ ("downlink" | "card"), files @ ..] => (*command, "", files),
        files => ("run", "", files),
    };
    let (samples, files) = match (command, files) {
        ("why", ["--samples", samples, files @ ..]) => (Some(samples), files),
        ("downlink", [trace, samples]) => (Some(samples), std::slice::from_ref(trace)),
        ("downlink", _) => panic!("a trace and its samples"),
        _ => (None, files),
    };
    let samples = samples.map(|path| std::fs::read(path).expect("the samples"));
    let mut traces: Vec<(&str, Vec<u8>)> = files.iter().map(|path| (*path, std::fs::read(path).expect("the trace"))).collect();
    if traces.is_empty() {
        let mut trace = Vec::new();
        std::io::stdin().read_to_end(&mut trace).expect("the trace");
        traces.push(("standard input", trace));
    }
    for (name, trace) in traces {
        let (refusal, text) = match command {
            "totals" => {
                let so_far = [0, 8, 16, 24, 32].map(|at| u64::from_str_radix(&after[at..at + 8], 16).expect("a number"));
                let (refusal, totals) = second::totals(so_far, &trace);
                (refusal, second::report(totals))
            }
            "why" => (0, second::why(after.parse().expect("a number"), &trace, samples.as_deref())),
            "downlink" => (0, second::run_downlink(&trace, samples.as_deref().expect("the samples"))),
            "card" => (0, second::run_card(&trace)),
            _ => (0, second::run(&trace)),
        };
        std::io::stdout().write_all(&text).expect("the answers");
        if refusal != 0 {
            eprintln!("{name}: refusal {refusal}, the totals are those of its first 4294967295 lines");
        }
    }
}
