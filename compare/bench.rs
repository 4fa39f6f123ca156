//! Measures the programs and the steps beside each other, for compare/bench, which says what is printed.
//!
//!     bench grow RUN_TRACE SECOND ROUNDS FILE..   a line for each file: lines, best seconds of each program, best of its processor's, peak kB
//!     bench second FILE STEPS [SAMPLES]           STEPS steps of the second implementation over the frames of FILE, again and again
//!     bench steps FILE STEPS ROUNDS [SAMPLES]     these and the library's in turn: best seconds of each, best of the processor's
//!
//! With SAMPLES, those of the frames of FILE, the steps are the downlink's. RUN_TRACE and SECOND may be other programs that answer a line with four
//! bytes, and SECOND have a word after a blank, as in 'second card'.
#[allow(dead_code)]
#[path = "../crates/lindenflax/lindenflax.rs"]
mod lindenflax;
#[allow(dead_code)]
#[path = "second.rs"]
mod second;

use lindenflax::{lindenflax_downlink, lindenflax_reset, lindenflax_step};
use second::{Memory, LINE, SAMPLES};
use std::fs::File;
use std::io::{Read, Write};
use std::process::{exit, Command, Stdio};
use std::time::Instant;

const STATE: usize = 85;

extern "C" {
    fn getrusage(who: i32, usage: *mut [i64; 18]) -> i32;
    fn wait4(pid: i32, status: *mut i32, options: i32, usage: *mut [i64; 18]) -> i32;
}

fn fail(what: &str) -> ! {
    eprintln!("bench: {what}");
    exit(1)
}

/// A frame in the form of each of the two steps.
struct Frame {
    acf: [i32; 9],
    lags: [u16; 4],
    scale: i16,
    samples: Option<Vec<i16>>,
    wide: (Vec<i64>, Vec<i64>, i64),
    wide_samples: Option<Vec<i64>>,
}

fn frames(path: &str, samples: Option<&String>) -> Vec<Frame> {
    let read = |path: &str| std::fs::read(path).unwrap_or_else(|e| fail(&format!("{path}: {e}")));
    let trace = read(path);
    let samples = samples.map(|path| read(path));
    let mut out = Vec::new();
    for (i, line) in trace.chunks(LINE).enumerate() {
        let wide = second::decode(line).unwrap_or_else(|n| fail(&format!("{path}: a line is refused: {n}")));
        let wide_samples = samples.as_ref().map(|s| second::samples_of(s, i));
        let samples = wide_samples.as_ref().map(|s| s.iter().map(|x| *x as i16).collect());
        let mut f = Frame { acf: [0; 9], lags: [0; 4], scale: wide.2 as i16, samples, wide, wide_samples };
        for i in 0..9 {
            f.acf[i] = f.wide.0[i] as i32;
        }
        for i in 0..4 {
            f.lags[i] = f.wide.1[i] as u16;
        }
        out.push(f);
    }
    out
}

/// How many of the steps from reset said speech.
fn first(frames: &[Frame], steps: usize) -> usize {
    let (mut state, mut answer, mut speech) = ([0i32; STATE], [0i32; 6], 0);
    unsafe { lindenflax_reset(state.as_mut_ptr(), STATE) };
    for f in frames.iter().cycle().take(steps) {
        let (acf, lags, state, answer_to) = (f.acf.as_ptr(), f.lags.as_ptr(), state.as_mut_ptr(), answer.as_mut_ptr());
        let n = match &f.samples {
            None => unsafe { lindenflax_step(acf, 9, lags, 4, f.scale, state, STATE, answer_to, 6) },
            Some(s) => unsafe { lindenflax_downlink(acf, 9, lags, 4, f.scale, s.as_ptr(), SAMPLES, state, STATE, answer_to, 6) },
        };
        if n != 0 {
            fail(&format!("a step is refused: {n}"));
        }
        speech += answer[0] as usize;
    }
    speech
}

fn other(frames: &[Frame], steps: usize) -> usize {
    let (mut memory, mut speech) = (Memory::reset(), 0);
    for f in frames.iter().cycle().take(steps) {
        let r = match &f.wide_samples {
            None => second::step(&f.wide.0, &f.wide.1, f.wide.2, &memory),
            Some(s) => second::downlink(&f.wide.0, &f.wide.1, f.wide.2, s, &memory),
        };
        if r.refusal != 0 {
            fail(&format!("a step is refused: {}", r.refusal));
        }
        speech += r.vad as usize;
        memory = r.next;
    }
    speech
}

/// The processor's seconds, for the program and for the system.
fn processor(usage: &[i64; 18]) -> f64 {
    (usage[0] + usage[2]) as f64 + (usage[1] + usage[3]) as f64 / 1e6
}

fn own() -> f64 {
    let mut usage = [0i64; 18];
    unsafe { getrusage(0, &mut usage) };
    processor(&usage)
}

/// Seconds, the processor's seconds, and what came out.
fn timed(f: impl FnOnce() -> usize) -> (f64, f64, usize) {
    let (start, before) = (Instant::now(), own());
    let speech = f();
    (start.elapsed().as_secs_f64(), own() - before, speech)
}

/// A program and the words after it.
fn command(program: &str) -> Command {
    let mut words = program.split(' ');
    let mut command = Command::new(words.next().unwrap());
    command.args(words);
    command
}

/// How many lines a file has.
fn lines(path: &str) -> u64 {
    let text = std::fs::read(path).unwrap_or_else(|e| fail(&format!("{path}: {e}")));
    text.iter().filter(|b| **b == b'\n').count() as u64
}

/// Runs a program on a file, its answers to nowhere: seconds, the processor's seconds, and peak kB as the system tells at its end.
fn run(program: &str, path: &str) -> (f64, f64, i64) {
    let start = Instant::now();
    let child = command(program).arg(path).stdout(Stdio::null()).spawn().unwrap_or_else(|e| fail(&format!("{program}: {e}")));
    let (mut status, mut usage) = (0, [0i64; 18]);
    if unsafe { wait4(child.id() as i32, &mut status, 0, &mut usage) } < 0 || status != 0 {
        fail(&format!("{program} {path}: status {status}"));
    }
    (start.elapsed().as_secs_f64(), processor(&usage), usage[4])
}

/// The peak kB of a program that answers line by line, asked when it has answered the last line and before it ends.
fn peak(program: &str, path: &str) -> i64 {
    let mut child = command(program).stdin(Stdio::piped()).stdout(Stdio::piped()).spawn().unwrap_or_else(|e| fail(&format!("{program}: {e}")));
    let mut to = child.stdin.take().unwrap();
    let mut from = child.stdout.take().unwrap();
    let name = path.to_string();
    let writer = std::thread::spawn(move || {
        let mut file = File::open(name)?;
        let mut piece = [0u8; 65536];
        loop {
            match file.read(&mut piece)? {
                0 => return Ok::<_, std::io::Error>(to),
                n => to.write_all(&piece[..n])?,
            }
        }
    });
    let (mut left, mut piece) = (lines(path) * 4, [0u8; 65536]);
    while left > 0 {
        match from.read(&mut piece) {
            Ok(n) if n > 0 => left -= n as u64,
            _ => fail(&format!("{program} {path}: too few answers")),
        }
    }
    let status = std::fs::read_to_string(format!("/proc/{}/status", child.id())).unwrap_or_default();
    drop(writer.join());
    child.wait().unwrap_or_else(|e| fail(&format!("{program}: {e}")));
    let line = status.lines().find(|l| l.starts_with("VmHWM:")).unwrap_or("");
    line.split_whitespace().nth(1).and_then(|n| n.parse().ok()).unwrap_or_else(|| fail("no peak memory in /proc"))
}

fn main() {
    let args: Vec<String> = std::env::args().skip(1).collect();
    let word = |i: usize| args.get(i).map(|s| s.as_str()).unwrap_or_else(|| fail("a word is missing"));
    let count = |i: usize| word(i).parse::<usize>().unwrap_or_else(|_| fail("a number is missing"));
    match word(0) {
        "grow" => {
            for path in &args[4..] {
                let (mut a, mut b) = ((f64::MAX, f64::MAX), (f64::MAX, f64::MAX, 0));
                for _ in 0..count(3) {
                    let (x, y) = (run(word(1), path), run(word(2), path));
                    a = (a.0.min(x.0), a.1.min(x.1));
                    b = (b.0.min(y.0), b.1.min(y.1), b.2.max(y.2));
                }
                println!("{} {:.6} {:.6} {:.6} {:.6} {} {}", lines(path), a.0, b.0, a.1, b.1, peak(word(1), path), b.2);
            }
        }
        "second" => println!("{}", other(&frames(word(1), args.get(3)), count(2))),
        "steps" => {
            let f = frames(word(1), args.get(4));
            let (mut a, mut b) = ((f64::MAX, f64::MAX), (f64::MAX, f64::MAX));
            for _ in 0..count(3) {
                let (x, y) = (timed(|| first(&f, count(2))), timed(|| other(&f, count(2))));
                if x.2 != y.2 {
                    fail(&format!("the two differ: {} and {} frames of speech", x.2, y.2));
                }
                a = (a.0.min(x.0), a.1.min(x.1));
                b = (b.0.min(y.0), b.1.min(y.1));
            }
            println!("{:.6} {:.6} {:.6} {:.6}", a.0, b.0, a.1, b.1);
        }
        _ => fail("grow, second or steps"),
    }
}
