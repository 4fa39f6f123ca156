//! Feeds the detector and the second program the same input, and stops at the first difference.
//!
//!     harness RUN_TRACE NIGHT_TOTALS WHY_TRACE RUN_DOWNLINK RUN_CARD CALLS TRACES SEED
//!
//! RUN_TRACE, NIGHT_TOTALS, WHY_TRACE, RUN_DOWNLINK and RUN_CARD are the programs and CALLS that of calls.c, which calls the static library;
//! compare/on_x86_64 runs them all. TRACES is a folder of NAME.trace with NAME.expected beside it, as TRACES/card is with traces of a card, and
//! TRACES/downlink one with NAME.s16 too. SEED is a number.
#[allow(dead_code)]
#[path = "second.rs"]
mod second;

use second::{Answer, Memory, CHANNELS, LINE, SAMPLES};
use std::io::{Read, Write};
use std::process::{exit, Command, Stdio};

const STATE: usize = 85;
const BUFFERS: usize = 5;

fn fail(what: &str) -> ! {
    println!("DIFFERENT: {what}");
    exit(1)
}

/// What a program writes that gets these words, and this input in these pieces.
fn written(program: &str, words: &[&str], input: &[u8], mut piece: impl FnMut() -> usize) -> Vec<u8> {
    let broken = |e: std::io::Error| -> ! { fail(&format!("{program}: {e}")) };
    let mut command = Command::new("compare/on_x86_64");
    let mut child = command.arg(program).args(words).stdin(Stdio::piped()).stdout(Stdio::piped()).spawn().unwrap_or_else(|e| broken(e));
    let mut to = child.stdin.take().unwrap();
    let mut from = child.stdout.take().unwrap();
    let reader = std::thread::spawn(move || {
        let mut out = Vec::new();
        from.read_to_end(&mut out).map(|_| out)
    });
    let mut rest = input;
    while !rest.is_empty() {
        let n = piece().min(rest.len());
        if to.write_all(&rest[..n]).and_then(|_| to.flush()).is_err() {
            break;
        }
        rest = &rest[n..];
    }
    drop(to);
    let out = reader.join().unwrap().unwrap_or_else(|e| broken(e));
    let status = child.wait().unwrap_or_else(|e| broken(e));
    if !status.success() {
        fail(&format!("{program}: {status}"));
    }
    out
}

/// A buffer lent to the library: the length that is said of it, how many bytes each of its numbers has there, and what it holds before the call
/// and must hold after it.
#[derive(Debug)]
struct Lent {
    length: usize,
    width: usize,
    before: Vec<i64>,
    after: Vec<i64>,
}

impl Lent {
    /// One that must stay as it is.
    fn kept(width: usize, held: &[i64]) -> Lent {
        Lent { length: held.len(), width, before: held.to_vec(), after: held.to_vec() }
    }
    fn bytes<'a>(&'a self, held: &'a [i64]) -> impl Iterator<Item = u8> + 'a {
        let fits = match self.width {
            1 => 0..=255,
            2 => -32768..=65535,
            _ => -2147483648..=2147483647,
        };
        if let Some(x) = held.iter().find(|x| !fits.contains(*x)) {
            fail(&format!("{x} does not fit its buffer\n{self:?}"));
        }
        held.iter().flat_map(|x| x.to_le_bytes().into_iter().take(self.width))
    }
}

/// A call of the library, under its letter in calls.c, and the number that it must return.
#[derive(Debug)]
struct Call {
    letter: char,
    scale: i64,
    lent: Vec<Lent>,
    number: i64,
}

impl Call {
    fn asked(&self, out: &mut Vec<u8>) {
        out.push(self.letter as u8);
        out.extend(&self.scale.to_le_bytes()[..2]);
        let each = |f: &dyn Fn(&Lent) -> usize| (0..BUFFERS).flat_map(|i| (self.lent.get(i).map_or(0, f) as u32).to_le_bytes()).collect::<Vec<u8>>();
        out.extend(each(&|b| b.length));
        out.extend(each(&|b| b.width * b.before.len()));
        self.lent.iter().for_each(|b| out.extend(b.bytes(&b.before)));
    }
    fn right(&self) -> Vec<u8> {
        let mut out = vec![self.number as u8];
        self.lent.iter().for_each(|b| out.extend(b.bytes(&b.after)));
        out
    }
    /// What it left, as numbers: the one returned, and each buffer's.
    fn told(&self, left: &[u8]) -> (Option<u8>, Vec<Vec<i64>>) {
        let mut at = 1;
        let number = |x: &[u8]| x.iter().rev().fold(if x[x.len() - 1] > 127 && x.len() > 1 { -1 } else { 0 }, |n: i64, d| n << 8 | *d as i64);
        let buffer = |b: &Lent| {
            let from = at.min(left.len());
            at += b.width * b.before.len();
            left[from..at.min(left.len())].chunks(b.width).map(number).collect()
        };
        (left.first().copied(), self.lent.iter().map(buffer).collect())
    }
}

/// Calls of the library that wait to be made together.
struct Library<'a> {
    program: &'a str,
    waiting: Vec<Call>,
}

impl Library<'_> {
    fn call(&mut self, call: Call) {
        self.waiting.push(call);
        if self.waiting.len() == 10_000 {
            self.make();
        }
    }
    /// Makes the calls that wait, and stops at the first that left something else than it must.
    fn make(&mut self) {
        let mut asked = Vec::new();
        self.waiting.iter().for_each(|c| c.asked(&mut asked));
        let left = written(self.program, &[], &asked, || usize::MAX);
        let mut rest = &left[..];
        for call in self.waiting.drain(..) {
            let right = call.right();
            let (got, after) = rest.split_at(right.len().min(rest.len()));
            if got != right {
                fail(&format!("a call of the library\n{call:?}\nleft {:?}", call.told(got)));
            }
            rest = after;
        }
        if !rest.is_empty() {
            fail("the library left more than it was asked");
        }
    }
}

/// xorshift64*: the same numbers from the same seed.
struct Random(u64);

impl Random {
    fn next(&mut self) -> u64 {
        self.0 ^= self.0 >> 12;
        self.0 ^= self.0 << 25;
        self.0 ^= self.0 >> 27;
        self.0.wrapping_mul(0x2545F4914F6CDD1D)
    }
    /// lo..=hi, its ends more often than by chance.
    fn from(&mut self, lo: i64, hi: i64) -> i64 {
        match self.next() % 16 {
            0 => lo,
            1 => hi,
            _ => lo + (self.next() % (hi - lo + 1) as u64) as i64,
        }
    }
    fn one_in(&mut self, n: u64) -> bool {
        self.next() % n == 0
    }
    /// Not negative, of any length in bits up to 31.
    fn long(&mut self) -> i64 {
        let bits = self.next() % 32;
        (self.next() & ((1u64 << bits) - 1)) as i64
    }
}

fn run_of(m: &Memory) -> Vec<i64> {
    let mut r = m.rvad.to_vec();
    r.push(m.normrvad);
    r.extend(m.l_sacf);
    r.push(m.pt_sacf);
    r.extend(m.l_sav0);
    r.extend([
        m.pt_sav0, m.lastdm, m.e_thvad, m.m_thvad, m.adaptcount, m.burstcount, m.hangcount, m.oldlagcount, m.veryoldlagcount, m.oldlag, m.tone,
    ]);
    r
}

fn memory_of(r: &[i64]) -> Memory {
    Memory {
        rvad: r[0..9].try_into().unwrap(),
        normrvad: r[9],
        l_sacf: r[10..37].try_into().unwrap(),
        pt_sacf: r[37],
        l_sav0: r[38..74].try_into().unwrap(),
        pt_sav0: r[74],
        lastdm: r[75],
        e_thvad: r[76],
        m_thvad: r[77],
        adaptcount: r[78],
        burstcount: r[79],
        hangcount: r[80],
        oldlagcount: r[81],
        veryoldlagcount: r[82],
        oldlag: r[83],
        tone: r[84],
    }
}

/// A valid state, with each part at the ends of its range now and then.
fn any_state(r: &mut Random) -> Memory {
    let mut m = Memory::reset();
    m.rvad[0] = r.from(16384, 32767);
    let mut left = 4 * m.rvad[0] + 11;
    for i in 1..9 {
        let size = r.from(0, left.min(32768));
        m.rvad[i] = if r.one_in(2) { -size } else { size.min(32767) };
        left -= m.rvad[i].abs();
    }
    m.normrvad = r.from(2, 9);
    let quiet = r.one_in(4);
    for (i, x) in m.l_sacf.iter_mut().enumerate() {
        let lo = if i % 9 == 0 { 0 } else { -536870912 };
        *x = if quiet { r.from(lo.max(-40), 40) } else { r.from(lo, 536870911) };
    }
    for (i, x) in m.l_sav0.iter_mut().enumerate() {
        let lo = if i % 9 == 0 { 0 } else { -2147483648 };
        *x = if quiet { r.from(lo.max(-160), 160) } else { r.from(lo, 2147483647) };
    }
    m.pt_sacf = 9 * r.from(0, 2);
    m.pt_sav0 = 9 * r.from(0, 3);
    m.lastdm = r.from(-2147483648, 2147483647);
    m.e_thvad = r.from(-32, 64);
    m.m_thvad = r.from(16384, 32767);
    m.adaptcount = r.from(0, 9);
    m.burstcount = r.from(0, 3);
    m.hangcount = r.from(-1, 5);
    m.oldlagcount = r.from(0, 4);
    m.veryoldlagcount = r.from(0, 4);
    m.oldlag = r.from(40, 120);
    m.tone = r.from(0, 1);
    m
}

/// A frame: nine numbers, four lags, a scale; now and then one that has to be refused.
fn any_frame(r: &mut Random) -> (Vec<i64>, Vec<i64>, i64) {
    let first = if r.one_in(8) { 0 } else { r.long() };
    let mut acf = vec![first];
    for _ in 1..9 {
        acf.push(r.from(-first, first));
    }
    let mut lags: Vec<i64> = (0..4).map(|_| r.from(40, 120)).collect();
    if r.one_in(3) {
        let n = r.from(40, 60);
        lags = vec![n, 2 * n, n, 2 * n - r.from(0, 2)];
    }
    let mut scale = r.from(0, 4);
    match r.next() % 64 {
        0 => scale = [-1, 5, 32767, -32768][r.from(0, 3) as usize],
        1 => acf[0] = -1 - r.long(),
        2 => acf[r.from(1, 8) as usize] = if first == 2147483647 { -2147483648 } else { first + 1 },
        3 => lags[r.from(0, 3) as usize] = [0, 39, 121, 65535][r.from(0, 3) as usize],
        _ => {}
    }
    (acf, lags, scale)
}

/// The samples of a frame: noise, the ends of the range, single samples or none, a square wave, pulses, tones, and the kept ones.
fn any_samples(r: &mut Random, kept: &[Vec<i64>]) -> Vec<i64> {
    let level = [1, 3, 40, 300, 3000, 32767][r.next() as usize % 6];
    match r.next() % 9 {
        0 => (0..SAMPLES).map(|_| r.from(-32768, 32767)).collect(),
        1 => (0..SAMPLES).map(|_| r.from(-level, level)).collect(),
        2 => (0..SAMPLES).map(|_| [-32768, 32767][r.next() as usize % 2]).collect(),
        3 => {
            let mut samples = vec![0; SAMPLES];
            for _ in 0..r.from(0, 3) {
                samples[r.from(0, 159) as usize] = r.from(-32768, 32767);
            }
            samples
        }
        4 => {
            let half = r.from(1, 40) as usize;
            (0..SAMPLES).map(|i| if i / half % 2 == 0 { level } else { -level - 1 }).collect()
        }
        5 => {
            let every = r.from(1, 6) as usize;
            (0..SAMPLES).map(|i| if i % every == 0 { level } else { 0 }).collect()
        }
        6 | 7 => {
            // half of them near the pole test's 385 Hz, and half with noise beside the tone
            let part = r.next() as f64 / u64::MAX as f64;
            let hertz = if r.one_in(2) { 365.0 + 40.0 * part } else { 300.0 + 3400.0 * part };
            let noise = if r.one_in(2) { level / r.from(3, 30) } else { 0 };
            let turn = std::f64::consts::TAU * hertz / 8000.0;
            let start = r.from(0, 159) as f64;
            let sample = |i: usize| (level as f64 * (turn * (start + i as f64)).sin()).round() as i64;
            (0..SAMPLES).map(|i| (sample(i) + r.from(-noise, noise)).clamp(-32768, 32767)).collect()
        }
        _ => kept[r.next() as usize % kept.len()].clone(),
    }
}

/// Samples at the edge of the tone test: two frames that differ by 1 in one sample, and of which one is a tone.
fn edge_samples(r: &mut Random, kept: &[Vec<i64>]) -> [Vec<i64>; 2] {
    let mut find = |tone: bool| loop {
        let samples = any_samples(r, kept);
        if second::tone(&samples) == tone {
            return samples;
        }
    };
    let (mut tone, mut none) = (find(true), find(false));
    loop {
        let half: Vec<i64> = tone.iter().zip(&none).map(|(x, y)| (x + y) >> 1).collect();
        if half == tone || half == none {
            break;
        }
        if second::tone(&half) {
            tone = half;
        } else {
            none = half;
        }
    }
    // the two are close now, and go on sample by sample
    for i in 0..SAMPLES {
        while tone[i] != none[i] {
            let mut near = tone.clone();
            near[i] += (none[i] - tone[i]).signum();
            if !second::tone(&near) {
                return [tone, near];
            }
            tone = near;
        }
    }
    fail("a frame is a tone and none")
}

/// The detector's step through the static library, the downlink's where there are samples, held to the second program's.
fn compare_step(library: &mut Library, acf: &[i64], lags: &[i64], scale: i64, samples: Option<&[i64]>, m: &Memory) -> Answer {
    let right = match samples {
        None => second::step(acf, lags, scale, m),
        Some(samples) => second::downlink(acf, lags, scale, samples, m),
    };
    if right.refusal == 0 && !right.next.valid() {
        fail(&format!("a step gave a state that is not valid: {:?}", right.next));
    }
    let (state, answer) = (run_of(m), vec![-7; 6]);
    let (next, told) = match right.refusal {
        0 => (run_of(&right.next), vec![right.vad, right.vvad, right.acf0.0, right.acf0.1, right.pvad.0, right.pvad.1]),
        _ => (state.clone(), answer.clone()),
    };
    let mut lent = vec![Lent::kept(4, acf), Lent::kept(2, lags)];
    lent.extend(samples.map(|s| Lent::kept(2, s)));
    lent.push(Lent { length: STATE, width: 4, before: state, after: next });
    lent.push(Lent { length: 6, width: 4, before: answer, after: told });
    library.call(Call { letter: if samples.is_some() { 'D' } else { 'S' }, scale, lent, number: right.refusal });
    right
}

fn write_line(acf: &[i64], lags: &[i64], scale: i64) -> Vec<u8> {
    let mut text = String::new();
    for x in acf {
        text += &format!("{:08X}", *x as i32);
    }
    text += &format!("{:X}", scale & 15);
    for n in lags {
        text += &format!("{:02X}", n & 255);
    }
    text.push('\n');
    text.into_bytes()
}

/// The line of a frame, now and then damaged.
fn any_line(r: &mut Random, (acf, lags, scale): &(Vec<i64>, Vec<i64>, i64)) -> Vec<u8> {
    let mut line = write_line(acf, lags, *scale);
    if r.one_in(12) {
        damage(r, &mut line);
    }
    line
}

/// Damages a line, of which the last byte is its line feed.
fn damage(r: &mut Random, line: &mut Vec<u8>) {
    let last = line.len() - 1;
    let at = r.from(0, last as i64 - 1) as usize;
    match r.next() % 8 {
        0 => line[at] = b'a' + (r.next() % 6) as u8,
        1 => line[at] = r.next() as u8,
        2 => drop(line.remove(at)),
        3 => line.insert(at, b'0'),
        4 => line.insert(last, b'\r'),
        5 => *line = b"\n".to_vec(),
        6 => line.splice(at..at, vec![b'F'; r.from(1, 300) as usize]).for_each(drop),
        _ => line[at] = b'\n',
    }
}

/// A file of samples for so many lines, new ones for one in so many of them; now and then too short, too long, or cut inside a number.
fn any_samples_file(r: &mut Random, kept: &[Vec<i64>], lines: usize, new: u64) -> Vec<u8> {
    let mut out = Vec::new();
    let mut samples = any_samples(r, kept);
    for _ in 0..lines {
        if r.one_in(new) {
            samples = any_samples(r, kept);
        }
        out.extend(samples.iter().flat_map(|x| (*x as i16).to_le_bytes()));
    }
    match r.next() % 16 {
        0 => out.clear(),
        1 => out.truncate(r.from(0, out.len() as i64) as usize),
        2 | 3 => out.truncate(out.len().saturating_sub(r.from(1, 2 * SAMPLES as i64 + 1) as usize)),
        4 | 5 => out.extend((0..r.from(1, 1000)).map(|_| r.next() as u8)),
        _ => {}
    }
    out
}

/// A trace of lines, some of them damaged; the frame is a new one for one in so many of them.
fn any_trace(r: &mut Random, lines: usize, new: u64) -> Vec<u8> {
    let mut out = Vec::new();
    let mut frame = any_frame(r);
    for _ in 0..lines {
        if r.one_in(new) {
            frame = any_frame(r);
        }
        out.extend(any_line(r, &frame));
    }
    if r.one_in(2) {
        let cut = r.from(1, LINE as i64) as usize;
        out.truncate(out.len().saturating_sub(cut));
    }
    out
}

/// What is said on a channel: the lines of a kept trace from some place on, again and again, or where there are none a frame that is a new one now
/// and then.
struct Talk<'a> {
    lines: Vec<&'a [u8]>,
    at: usize,
    frame: (Vec<i64>, Vec<i64>, i64),
}

impl Talk<'_> {
    fn next(&mut self, r: &mut Random) -> Vec<u8> {
        if !self.lines.is_empty() {
            self.at = (self.at + 1) % self.lines.len();
            return self.lines[self.at].to_vec();
        }
        if r.one_in(10) {
            self.frame = any_frame(r);
        }
        write_line(&self.frame.0, &self.frame.1, self.frame.2)
    }
}

/// A card's trace, on these channels in any order: frames and resets, channels that the card has not, and damaged lines.
fn any_card(r: &mut Random, kept: &[Vec<u8>], channels: &[i64], lines: usize) -> Vec<u8> {
    let talk = |r: &mut Random| {
        let trace = &kept[r.next() as usize % kept.len()];
        let lines: Vec<&[u8]> = if r.one_in(3) { vec![] } else { trace.split_inclusive(|b| *b == b'\n').collect() };
        Talk { lines, at: r.next() as usize % 300, frame: any_frame(r) }
    };
    let mut talks: Vec<Talk> = (0..256).map(|_| talk(r)).collect();
    let mut out = Vec::new();
    for _ in 0..lines {
        let channel = if r.one_in(40) { r.from(CHANNELS as i64, 255) } else { channels[r.next() as usize % channels.len()] };
        let mut line = format!("{channel:02X}").into_bytes();
        if r.one_in(30) {
            line.push(b'\n');
        } else {
            line.extend(talks[channel as usize].next(r));
        }
        match r.next() % 100 {
            0..=5 => damage(r, &mut line),
            // a line with no channel, one with a blank after it, and one that names it in lower case
            6 => drop(line.drain(..2)),
            7 => line.insert(2, b' '),
            8 => line[..2].make_ascii_lowercase(),
            _ => {}
        }
        out.extend(line);
    }
    // the end of the input cuts the last line anywhere, or where its line feed alone is missing, or a reset's
    match r.next() % 4 {
        0 => out.truncate(out.len().saturating_sub(r.from(1, LINE as i64 + 2) as usize)),
        1 => drop(out.pop()),
        2 => out.extend(format!("{:02X}", channels[0]).into_bytes()),
        _ => {}
    }
    out
}

/// What the lines of card traces were: how many have each refusal number, how many are resets, how many are cut; the channels; and the runs of one
/// channel that were held to run_trace.
#[derive(Default)]
struct Told {
    refused: [usize; 10],
    resets: usize,
    cut: usize,
    channels: std::collections::BTreeSet<usize>,
    alone: usize,
}

impl Told {
    fn lines(&self) -> usize {
        self.refused.iter().sum()
    }
    /// Stops where a kind of line has not come up.
    fn each_kind(&self) {
        let mut kinds = [0, 2, 3, 4, 6, 9].map(|n| self.refused[n]).into_iter().chain([self.resets, self.cut, self.alone]);
        if kinds.any(|n| n == 0) || self.channels.len() != CHANNELS {
            fail(&format!("a kind of line has not come up: refused {:?}, {} cut; {self}", self.refused, self.cut));
        }
    }
}

impl std::fmt::Display for Told {
    fn fmt(&self, f: &mut std::fmt::Formatter) -> std::fmt::Result {
        let Told { refused, resets, channels, alone, .. } = self;
        write!(f, "lines on {} channels: {resets} resets, {} refused with 6 and {} with 9; ", channels.len(), refused[6], refused[9])?;
        write!(f, "{alone} runs of one channel by run_trace too")
    }
}

/// The card's program on a trace that comes in pieces: its answers are the right ones, and those of a channel, from each of its resets on, are those of
/// one detector by itself over the channel's own lines. The second program is asked for all of these runs, and run_trace for some.
fn held_card(programs: &[String], what: &str, trace: &[u8], right: &[u8], told: &mut Told, r: &mut Random) {
    held(what, trace, &written(&programs[4], &[], trace, || r.from(1, 70000) as usize), right);
    let mut now = vec![(Vec::new(), Vec::new()); CHANNELS];
    let mut runs = Vec::new();
    for (line, answer) in trace.split_inclusive(|b| *b == b'\n').zip(right.chunks(4)) {
        let formed = [3, LINE + 2].contains(&line.len()) && line.ends_with(b"\n") && line[..line.len() - 1].iter().all(|b| b"0123456789ABCDEF".contains(b));
        let channel = if formed { usize::from_str_radix(std::str::from_utf8(&line[..2]).unwrap(), 16).unwrap() } else { 0 };
        let must = match line.len() {
            _ if !formed => "600\n",
            _ if channel >= CHANNELS => "900\n",
            3 => "000\n",
            _ => "",
        };
        if !answer.starts_with(must.as_bytes()) || must.is_empty() && b"69".contains(&answer[0]) {
            fail(&format!("{what} (second program): {} to {}", String::from_utf8_lossy(answer), String::from_utf8_lossy(line)));
        }
        told.refused[(answer[0] - b'0') as usize] += 1;
        told.cut += !line.ends_with(b"\n") as usize;
        if must.is_empty() {
            told.channels.insert(channel);
            now[channel].0.extend(&line[2..]);
            now[channel].1.extend(answer);
        } else if must == "000\n" {
            told.resets += 1;
            runs.push(std::mem::take(&mut now[channel]));
        }
    }
    runs.extend(now);
    runs.retain(|(lines, _)| !lines.is_empty());
    for (lines, answers) in &runs {
        held(&format!("{what}, a channel by itself (second program)"), lines, answers, &second::run(lines));
    }
    for _ in 0..runs.len().min(3) {
        let (lines, answers) = &runs[r.next() as usize % runs.len()];
        held(&format!("{what}, a channel by itself"), lines, answers, &written(&programs[0], &[], lines, || usize::MAX));
        told.alone += 1;
    }
}

/// A line read through the static library into buffers of these lengths, each with one number more behind it, held to the second program's.
fn compare_read(library: &mut Library, line: &[u8], (n, k, one): (usize, usize, usize)) -> i64 {
    let right = if (n, k, one) == (9, 4, 1) { second::decode(line) } else { Err(1) };
    let number = right.as_ref().err().copied().unwrap_or(0);
    let (acf, lags, scale) = right.unwrap_or_default();
    let lent = |length: usize, width: usize, read: &[i64]| {
        let before = vec![-7; length + 1];
        let after = [read, &before[read.len()..]].concat();
        Lent { length, width, before, after }
    };
    let scale = if number == 0 { vec![scale] } else { vec![] };
    let bytes: Vec<i64> = line.iter().map(|b| *b as i64).collect();
    library.call(Call { letter: 'R', scale: 0, lent: vec![Lent::kept(1, &bytes), lent(n, 4, &acf), lent(k, 2, &lags), lent(one, 2, &scale)], number });
    number
}

/// A frame written through the static library into a line of this length, with one byte more behind it, held to the line written above.
fn compare_write(library: &mut Library, acf: &[i64], lags: &[i64], scale: i64, length: usize) -> i64 {
    let number = if acf.len() != 9 || lags.len() != 4 || length != LINE { 1 } else { second::frame_refusal(acf, lags, scale) };
    let before = vec![b'?' as i64; length + 1];
    let mut after = before.clone();
    if number == 0 {
        let line = write_line(acf, lags, scale);
        if second::decode(&line) != Ok((acf.to_vec(), lags.to_vec(), scale)) {
            fail(&format!("a line does not read back: {}", String::from_utf8_lossy(&line)));
        }
        after.splice(..LINE, line.iter().map(|b| *b as i64)).for_each(drop);
    }
    library.call(Call { letter: 'W', scale, lent: vec![Lent::kept(4, acf), Lent::kept(2, lags), Lent { length, width: 1, before, after }], number });
    number
}

/// Lines and frames through the static library, right, random and refused, and buffers of every length near the right one: how many lines were
/// read and how many of them accepted, then the same of frames written.
fn compare_lines(library: &mut Library, r: &mut Random) -> [usize; 4] {
    let mut count = [0; 4];
    let mut tell = |at: usize, refusal: i64| {
        count[at] += 1;
        count[at + 1] += (refusal == 0) as usize;
    };
    for _ in 0..400_000 {
        let line = match r.next() % 8 {
            0 => (0..r.from(0, 120)).map(|_| r.next() as u8).collect(),
            1 => (0..81).map(|_| b"0123456789ABCDEF"[r.next() as usize % 16]).chain([b'\n']).collect(),
            _ => {
                let frame = any_frame(r);
                any_line(r, &frame)
            }
        };
        tell(0, compare_read(library, &line, (9, 4, 1)));
        let (acf, lags, scale) = any_frame(r);
        tell(2, compare_write(library, &acf, &lags, scale, LINE));
    }
    // each byte of a right line as every other byte, and the line cut and lengthened
    let right = write_line(&[2147483647, -2147483647, 0, 1, -1, 9, -160, 43981, 2147483647], &[40, 120, 79, 65], 3);
    for at in 0..LINE {
        for byte in 0..=255 {
            let mut line = right.clone();
            line[at] = byte;
            tell(0, compare_read(library, &line, (9, 4, 1)));
        }
        tell(0, compare_read(library, &right[..at], (9, 4, 1)));
        tell(0, compare_read(library, &[&right[..], &right[..at + 1]].concat(), (9, 4, 1)));
    }
    // buffers of other lengths, for a frame that is right and one that is refused
    for (first, scale, lag) in [(1, 0, 40), (-1, 0, 40), (1, 5, 40), (1, 4, 121)] {
        let frame = |n: usize| (0..n).map(|i| if i == 0 { first } else { 0 }).collect::<Vec<i64>>();
        let line = write_line(&frame(9), &[lag; 4], scale);
        for n in 0..12 {
            for k in 0..7 {
                for one in 0..4 {
                    tell(0, compare_read(library, &line, (n, k, one)));
                    tell(0, compare_read(library, &line[1..], (n, k, one)));
                }
                for length in [0, 1, 72, 81, 82, 83, 200] {
                    tell(2, compare_write(library, &frame(n), &vec![lag; k], scale, length));
                }
            }
        }
    }
    count
}

/// Steps from states that were changed by hand, most of them not valid: how many, and how many were refused with 5.
fn compare_changed(library: &mut Library, r: &mut Random, kept: &[Vec<i64>]) -> [usize; 2] {
    let mut count = [0; 2];
    let mut tell = |refusal: i64| {
        count[0] += 1;
        count[1] += (refusal == 5) as usize;
    };
    let (acf, lags) = ([1i64, 0, 0, 0, 0, 0, 0, 0, 0], [40i64; 4]);
    for i in 0..STATE {
        for x in [-2147483648, -536870913, -100000, -33, -1, 1, 2, 28, 100000, 536870912, 2147483647] {
            let mut run = run_of(&Memory::reset());
            run[i] = x;
            for samples in [None, Some(&[0i64; SAMPLES][..])] {
                tell(compare_step(library, &acf, &lags, 0, samples, &memory_of(&run)).refusal);
            }
        }
    }
    for _ in 0..100_000 {
        let mut run = run_of(&any_state(r));
        for _ in 0..r.from(1, 3) {
            let i = r.from(0, STATE as i64 - 1) as usize;
            let x = match r.next() % 4 {
                0 => run[i] + r.from(-2, 2),
                1 => run[i] + r.from(-1, 1) * 65536,
                2 => r.from(-130, 130),
                _ => r.next() as i64,
            };
            run[i] = x as i32 as i64;
        }
        let (acf, lags, scale) = any_frame(r);
        let samples = r.one_in(8).then(|| any_samples(r, kept));
        tell(compare_step(library, &acf, &lags, scale, samples.as_deref(), &memory_of(&run)).refusal);
    }
    count
}

/// Resets and steps with buffers of other lengths, each with one number more behind it: how many.
fn compare_lengths(library: &mut Library) -> usize {
    let mut count = 0;
    let reset = run_of(&Memory::reset());
    for n in 0..100 {
        let before = vec![9; n + 1];
        let after = if n == STATE { [&reset[..], &[9]].concat() } else { before.clone() };
        library.call(Call { letter: 'Z', scale: 0, lent: vec![Lent { length: n, width: 4, before, after }], number: (n != STATE) as i64 });
        count += 1;
    }
    for first in [24576, 0] {
        let mut state = [&reset[..], &[0, 0]].concat();
        state[0] = first;
        let said = |length: usize, width: usize, held: &[i64]| Lent { length, ..Lent::kept(width, held) };
        for (a, l, s, k) in (0..11 * 6 * 87 * 8).map(|i| (i % 11, i / 11 % 6, i / 66 % 87, i / 5742)) {
            if (a, l, s, k) == (9, 4, STATE, 6) {
                continue;
            }
            let lent = vec![said(a, 4, &[1, 0, 0, 0, 0, 0, 0, 0, 0, 0, 0]), said(l, 2, &[40; 6]), said(s, 4, &state), said(k, 4, &[-7; 8])];
            library.call(Call { letter: 'S', scale: 0, lent, number: 1 });
            count += 1;
        }
        // the same on the downlink, with lengths near the right ones, and samples of the right length and of others
        for (i, samples) in (0..256).flat_map(|i| [0, 1, 159, 160, 161, 320].map(|samples| (i, samples))) {
            let (a, l, s, k) = ([0, 8, 9, 10][i % 4], [0, 3, 4, 5][i / 4 % 4], [0, 84, 85, 86][i / 16 % 4], [0, 5, 6, 7][i / 64]);
            let right = (a, l, s, k) == (9, 4, STATE, 6);
            if right && samples == SAMPLES {
                continue;
            }
            let lent = vec![
                said(a, 4, &[1, 0, 0, 0, 0, 0, 0, 0, 0, 0]),
                said(l, 2, &[40; 5]),
                said(samples, 2, &[32767; 2 * SAMPLES]),
                said(s, 4, &state),
                said(k, 4, &[-7; 7]),
            ];
            library.call(Call { letter: 'D', scale: 0, lent, number: if right { 8 } else { 1 } });
            count += 1;
        }
    }
    count
}

/// Downlink steps with every choice of the faults that a frame of right lengths can have: the first in the order 8, 5, 2, 3, 4 is the number. How many.
fn compare_order(library: &mut Library) -> usize {
    let mut count = 0;
    for choice in 0..32 {
        let bad = |i: usize| choice >> i & 1 == 1;
        let first = [8, 5, 2, 3, 4].iter().enumerate().find(|(i, _)| bad(*i)).map_or(0, |(_, number)| *number);
        for (samples, (at, x), scale, acf, lag) in (0..72).map(|i| {
            let state = [(84, 2), (84, -1), (84, 256), (0, 0)][i / 3 % 4];
            ([0, 159, 161][i % 3], state, [-1, 5][i / 12 % 2], [(0, -1), (8, 2), (1, -2)][i / 24], [39, 121][i % 2])
        }) {
            let mut run = run_of(&Memory::reset());
            run[STATE - 1] = (choice + count as i64) & 1;
            let (mut numbers, mut lags) = (vec![1, 0, 0, 0, 0, 0, 0, 0, 0], vec![40; 4]);
            if bad(1) {
                run[at] = x;
            }
            if bad(3) {
                numbers[acf.0] = acf.1;
            }
            if bad(4) {
                lags[count % 4] = lag;
            }
            let samples = vec![-32768; if bad(0) { samples } else { SAMPLES }];
            let right = compare_step(library, &numbers, &lags, if bad(2) { scale } else { 4 }, Some(&samples), &memory_of(&run));
            if right.refusal != first {
                fail(&format!("the second program refuses with {} and not {first}", right.refusal));
            }
            count += 1;
        }
    }
    count
}

/// Downlink steps from random states, with samples at the edge of the tone test, and runs that go from one direction to the other and back: how many
/// steps, how many of the downlink, and how many of these found a tone.
fn compare_downlink(library: &mut Library, r: &mut Random, kept: &[Vec<i64>]) -> [usize; 3] {
    let mut count = [0; 3];
    let mut tell = |samples: Option<&[i64]>, a: &Answer| {
        count[0] += 1;
        count[1] += samples.is_some() as usize;
        count[2] += (samples.is_some() && a.refusal == 0 && a.next.tone == 1) as usize;
    };
    for _ in 0..40_000 {
        let m = any_state(r);
        let (acf, lags, scale) = any_frame(r);
        let mut samples = any_samples(r, kept);
        if r.one_in(20) {
            samples.resize(r.from(0, 320) as usize, 0);
        }
        tell(Some(&samples), &compare_step(library, &acf, &lags, scale, Some(&samples), &m));
    }
    for _ in 0..2_000 {
        let (acf, lags, scale) = any_frame(r);
        for samples in edge_samples(r, kept) {
            tell(Some(&samples), &compare_step(library, &acf, &lags, scale, Some(&samples), &Memory::reset()));
        }
    }
    for _ in 0..200 {
        let mut m = if r.one_in(2) { any_state(r) } else { Memory::reset() };
        let (acf, lags, scale) = any_frame(r);
        let mut samples = any_samples(r, kept);
        // in half of the runs the direction stays, so that the flag is found and then read
        let turn = [2, 20][r.next() as usize % 2];
        let mut down = true;
        for _ in 0..100 {
            if r.one_in(10) {
                samples = any_samples(r, kept);
            }
            down ^= r.one_in(turn);
            let given = down.then_some(&samples[..]);
            let answer = compare_step(library, &acf, &lags, scale, given, &m);
            tell(given, &answer);
            m = answer.next;
        }
    }
    count
}

/// The programs on a trace that comes in pieces, each held to the second program; `answers` are the right ones.
fn held_programs(programs: &[String], what: &str, trace: &[u8], answers: &[u8], r: &mut Random) {
    let mut of = |i: usize| written(&programs[i], &[], trace, || r.from(1, 70000) as usize);
    held(what, trace, &of(0), answers);
    held_totals(what, trace, &of(1), answers);
    held_why(what, trace, None, &of(2), answers);
}

/// The programs of the downlink on a trace and its samples, from two files, or one of the two from standard input in pieces.
fn held_downlink(programs: &[String], what: &str, trace: &[u8], samples: &[u8], answers: &[u8], r: &mut Random) {
    let files = ["target/compare/downlink.trace", "target/compare/downlink.s16"];
    for (path, bytes) in files.iter().zip([trace, samples]) {
        std::fs::write(path, bytes).unwrap_or_else(|e| fail(&format!("{path}: {e}")));
    }
    let mut of = |program: &str| {
        let (words, input) = match r.next() % 3 {
            0 => (files, &[][..]),
            1 => (["/dev/stdin", files[1]], trace),
            _ => ([files[0], "/dev/stdin"], samples),
        };
        written(program, &words, input, || r.from(1, 70000) as usize)
    };
    held(what, trace, &of(&programs[3]), answers);
    let flags: Vec<u8> = answers.chunks(5).flat_map(|a| [a[0], a[1], a[2], b'\n']).collect();
    held_why(what, trace, Some(samples), &of(&programs[2]), &flags);
}

/// The totals, held to the second program's: they add up, and are those of the answers.
fn held_totals(what: &str, trace: &[u8], got: &[u8], answers: &[u8]) {
    let (refusal, totals) = second::totals([0; 5], trace);
    let of = |kinds: &[&[u8]]| answers.chunks(4).filter(|a| kinds.iter().any(|k| a.starts_with(k))).count() as u64;
    let counts = [of(&[b"0"]), of(&[b"011"]), of(&[b"010"]), of(&[b"000"]), of(&[b"2", b"3", b"4", b"6"])];
    if (refusal, totals) != (0, counts) || counts[0] + counts[4] != answers.len() as u64 / 4 {
        fail(&format!("{what} (second program): totals {totals:?} and counts {counts:?}"));
    }
    let right = second::report(totals);
    if got != right {
        fail(&format!("{what}: totals {} and not {}", String::from_utf8_lossy(got), String::from_utf8_lossy(&right)));
    }
}

/// The explanations, held to the second program's: their flags are those of the answers.
fn held_why(what: &str, trace: &[u8], samples: Option<&[u8]>, got: &[u8], answers: &[u8]) {
    let right = second::why(0, trace, samples);
    let answer = |line: &str| match line.split(' ').collect::<Vec<_>>()[..] {
        ["refused", number] => format!("{number}00\n"),
        [_, "energy", ..] => "011\n".to_string(),
        [_, "hangover", ..] => "010\n".to_string(),
        _ => "000\n".to_string(),
    };
    let explained: String = String::from_utf8_lossy(&right).lines().map(answer).collect();
    held(&format!("{what} (second program), explained"), trace, explained.as_bytes(), answers);
    held(&format!("{what}, explained"), trace, got, &right);
}

/// Line by line, so that the first difference is named with its line of input.
fn held(what: &str, trace: &[u8], got: &[u8], right: &[u8]) {
    if got == right {
        return;
    }
    let lines = |x| <[u8]>::split_inclusive(x, |b| *b == b'\n');
    let at = lines(got).zip(lines(right)).take_while(|(x, y)| x == y).count();
    let show = |x| String::from_utf8_lossy(lines(x).nth(at).unwrap_or(b"(nothing)")).trim_end().to_string();
    fail(&format!("{what}, line {}: {} and not {}\n{}", at + 1, show(got), show(right), show(trace)));
}

/// The traces of a folder, in the order of their names.
fn traces_of(folder: &str) -> Vec<(std::path::PathBuf, Vec<u8>)> {
    let mut names: Vec<_> = std::fs::read_dir(folder).expect("the folder of traces").map(|e| e.unwrap().path()).collect();
    names.retain(|p| p.extension().map_or(false, |e| e == "trace"));
    names.sort();
    names.into_iter().map(|p| (p.clone(), std::fs::read(p).unwrap())).collect()
}

fn main() {
    let args: Vec<String> = std::env::args().collect();
    if args.len() != 9 {
        eprintln!("usage: harness RUN_TRACE NIGHT_TOTALS WHY_TRACE RUN_DOWNLINK RUN_CARD CALLS TRACES SEED");
        exit(2);
    }
    let programs = &args[1..6];
    let folder = &args[7];
    let seed: u64 = args[8].parse().expect("a number");
    let mut r = Random(seed | 1);

    // the traces of the repository: both programs, and the answers that are kept
    let (mut traces, mut lines, mut kept_traces) = (0, 0, Vec::new());
    for (path, trace) in traces_of(folder) {
        let kept = std::fs::read(path.with_extension("expected")).unwrap();
        let what = path.display().to_string();
        held(&format!("{what} (second program)"), &trace, &second::run(&trace), &kept);
        held_programs(programs, &what, &trace, &kept, &mut r);
        traces += 1;
        lines += kept.len() / 4;
        kept_traces.push(trace);
    }
    println!("{traces} traces of {lines} lines, their totals and their explanations");
    let (mut traces, mut kept_samples) = (0, Vec::new());
    for (path, trace) in traces_of(&format!("{folder}/downlink")) {
        let kept = std::fs::read(path.with_extension("expected")).unwrap();
        let samples = std::fs::read(path.with_extension("s16")).unwrap();
        let what = path.display().to_string();
        held(&format!("{what} (second program)"), &trace, &second::run_downlink(&trace, &samples), &kept);
        held_downlink(programs, &what, &trace, &samples, &kept, &mut r);
        kept_samples.extend((0..kept.len() / 5).map(|frame| second::samples_of(&samples, frame)));
        traces += 1;
    }
    println!("{traces} downlink traces of {} lines and their explanations", kept_samples.len());
    let (mut traces, mut told) = (0, Told::default());
    for (path, trace) in traces_of(&format!("{folder}/card")) {
        let kept = std::fs::read(path.with_extension("expected")).unwrap();
        let what = path.display().to_string();
        held(&format!("{what} (second program)"), &trace, &second::run_card(&trace), &kept);
        held_card(programs, &what, &trace, &kept, &mut told, &mut r);
        traces += 1;
    }
    println!("{traces} card traces of {} {told}", told.lines());

    // random and damaged lines, in pieces; in half of the traces frames stay alike, so that the threshold adapts
    let mut random = 0;
    for n in [0, 1, 2, 3, 50, 1000, 20000, 100000] {
        for new in [1, 1, 20, 20] {
            let trace = any_trace(&mut r, n, new);
            let right = second::run(&trace);
            held_programs(programs, "random lines", &trace, &right, &mut r);
            random += right.len() / 4;
        }
    }
    println!("{random} random and damaged lines, the totals of their traces and their explanations");
    let (mut random, mut short) = (0, 0);
    for n in [0, 1, 2, 3, 50, 1000, 3000] {
        for new in [1, 20, 20] {
            let trace = any_trace(&mut r, n, new);
            let samples = any_samples_file(&mut r, &kept_samples, n, new);
            let right = second::run_downlink(&trace, &samples);
            held_downlink(programs, "random downlink lines", &trace, &samples, &right, &mut r);
            random += right.len() / 5;
            short += right.chunks(5).filter(|a| a[0] == b'8').count();
        }
    }
    println!("{random} random and damaged downlink lines and their explanations, {short} of them with too few samples");

    // a card's: on two neighbours, on a few channels, and on all of them
    let mut told = Told::default();
    for n in [0, 1, 2, 3, 50, 1000, 12000] {
        let some = r.from(0, CHANNELS as i64 - 2);
        for channels in [vec![0, 1], vec![62, 63], vec![some, some + 1], (0..64).step_by(9).collect(), (0..64).collect()] {
            let trace = any_card(&mut r, &kept_traces, &channels, n);
            held_card(programs, "random card lines", &trace, &second::run_card(&trace), &mut told, &mut r);
        }
    }
    told.each_kind();
    println!("{} random and damaged card {told}", told.lines());

    // random valid states and frames, one step each, and runs of them
    let library = &mut Library { program: &args[6], waiting: Vec::new() };
    let mut steps = 0;
    for _ in 0..400_000 {
        let m = any_state(&mut r);
        let (acf, lags, scale) = any_frame(&mut r);
        compare_step(library, &acf, &lags, scale, None, &m);
        steps += 1;
    }
    for _ in 0..2_000 {
        let mut m = any_state(&mut r);
        let quiet = r.one_in(2);
        let (mut acf, lags, scale) = any_frame(&mut r);
        for _ in 0..200 {
            // frames that stay alike, so that the threshold adapts
            if !quiet && r.one_in(10) {
                acf = any_frame(&mut r).0;
            }
            m = compare_step(library, &acf, &lags, scale, None, &m).next;
            steps += 1;
        }
    }
    library.make();
    println!("{steps} steps from random states");
    let [steps, downlink, tones] = compare_downlink(library, &mut r, &kept_samples);
    library.make();
    println!("{steps} more in both directions, {downlink} of the downlink, {tones} of which found a tone");
    let order = compare_order(library);
    library.make();
    println!("{order} downlink steps with every choice of faults");

    let [changed, refused] = compare_changed(library, &mut r, &kept_samples);
    library.make();
    println!("{changed} steps from changed states, {refused} of them refused as not valid");
    let lengths = compare_lengths(library);
    library.make();
    println!("{lengths} resets and steps with buffers of other lengths");
    let [read, accepted, written, right] = compare_lines(library, &mut r);
    library.make();
    println!("{read} lines read through the library, {accepted} of them accepted, and {written} frames written, {right} of them accepted");
    println!("no difference (seed {seed})");
}
