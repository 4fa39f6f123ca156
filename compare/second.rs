//! A second implementation of the voice activity detector, to compare the first one with. It shares no code with it: it is written from GSM 06.32,
//! clause 6 (the clause numbers stand beside each part), and document 01 as requests 4 and 5 mend it, in plain Rust, with every number an i64.

pub const LINE: usize = 82;

/// The samples of a frame, which only the downlink is given.
pub const SAMPLES: usize = 160;

/// The calls that a card carries.
pub const CHANNELS: usize = 64;

/// The most lines that the totals count, and the most frames that are numbered.
const MOST: u64 = 0xFFFF_FFFF;

/// What is kept from frame to frame.
#[derive(Clone, Debug, PartialEq, Eq)]
pub struct Memory {
    pub rvad: [i64; 9],
    pub normrvad: i64,
    pub l_sacf: [i64; 27],
    pub pt_sacf: i64,
    pub l_sav0: [i64; 36],
    pub pt_sav0: i64,
    pub lastdm: i64,
    pub e_thvad: i64,
    pub m_thvad: i64,
    pub adaptcount: i64,
    pub burstcount: i64,
    pub hangcount: i64,
    pub oldlagcount: i64,
    pub veryoldlagcount: i64,
    pub oldlag: i64,
    pub tone: i64,
}

/// The way of a frame through 6.6: where it leaves the clause. Waiting has adaptcount as it has risen.
#[derive(Clone, Debug, PartialEq, Eq)]
pub enum Way {
    Floor,
    Periodic,
    Unsteady,
    Tone,
    Waiting(i64),
    Adapted,
}

/// What a frame is answered, and its way, which a refused one has not.
#[derive(Clone, Debug, PartialEq, Eq)]
pub struct Answer {
    pub refusal: i64,
    pub vad: i64,
    pub vvad: i64,
    pub acf0: (i64, i64),
    pub pvad: (i64, i64),
    pub way: Option<Way>,
    pub next: Memory,
}

// ---- GSM 06.10

fn sat16(x: i64) -> i64 {
    x.max(-32768).min(32767)
}
fn sat32(x: i64) -> i64 {
    x.max(-2147483648).min(2147483647)
}
fn add(a: i64, b: i64) -> i64 {
    sat16(a + b)
}
fn sub(a: i64, b: i64) -> i64 {
    sat16(a - b)
}
fn l_add(a: i64, b: i64) -> i64 {
    sat32(a + b)
}
fn l_sub(a: i64, b: i64) -> i64 {
    sat32(a - b)
}
fn l_mult(a: i64, b: i64) -> i64 {
    sat32(2 * a * b)
}
fn mult(a: i64, b: i64) -> i64 {
    sat16((a * b) >> 15)
}
fn mult_r(a: i64, b: i64) -> i64 {
    sat16((a * b + 16384) >> 15)
}
fn abs(a: i64) -> i64 {
    sat16(a.abs())
}
/// The shift that brings a positive number into 2^30..2^31-1.
fn norm(x: i64) -> i64 {
    let mut n = 0;
    if x > 0 {
        while x << n < 1 << 30 {
            n += 1;
        }
    }
    n
}
fn div(a: i64, b: i64) -> i64 {
    if a == 0 {
        0
    } else if a == b {
        32767
    } else {
        (a << 15) / b
    }
}
/// A shift of a long variable: to the left it drops bits, to the right it rounds down.
fn shl(x: i64, n: i64) -> i64 {
    if n < 0 {
        return shr(x, -n);
    }
    if n > 31 {
        0
    } else {
        ((x as i32) << n) as i64
    }
}
fn shr(x: i64, n: i64) -> i64 {
    if n < 0 {
        return shl(x, -n);
    }
    x >> n.min(63)
}

impl Memory {
    pub fn reset() -> Memory {
        let mut rvad = [0; 9];
        rvad[0] = 24576;
        rvad[1] = -16384;
        rvad[2] = 4096;
        Memory {
            rvad,
            normrvad: 7,
            l_sacf: [0; 27],
            pt_sacf: 0,
            l_sav0: [0; 36],
            pt_sav0: 0,
            lastdm: 0,
            e_thvad: 20,
            m_thvad: 31250,
            adaptcount: 0,
            burstcount: 0,
            hangcount: -1,
            oldlagcount: 0,
            veryoldlagcount: 0,
            oldlag: 40,
            tone: 0,
        }
    }

    pub fn valid(&self) -> bool {
        let pointer = |p: i64, last: i64| (0..=last).contains(&p) && p % 9 == 0;
        let weight: i64 = self.rvad[1..].iter().map(|x| x.abs()).sum();
        pointer(self.pt_sacf, 18)
            && pointer(self.pt_sav0, 27)
            && self.l_sacf.iter().all(|x| (-536870912..=536870911).contains(x))
            && (0..3).all(|k| self.l_sacf[9 * k] >= 0)
            && (0..4).all(|k| self.l_sav0[9 * k] >= 0)
            && self.rvad.iter().all(|x| (-32768..=32767).contains(x))
            && (16384..=32767).contains(&self.rvad[0])
            && weight <= 4 * self.rvad[0] + 11
            && (2..=9).contains(&self.normrvad)
            && (16384..=32767).contains(&self.m_thvad)
            && (-32..=64).contains(&self.e_thvad)
            && (0..=9).contains(&self.adaptcount)
            && (0..=3).contains(&self.burstcount)
            && (-1..=5).contains(&self.hangcount)
            && (0..=4).contains(&self.oldlagcount)
            && (0..=4).contains(&self.veryoldlagcount)
            && (40..=120).contains(&self.oldlag)
            && (0..=1).contains(&self.tone)
    }
}

/// Refusals 2, 3 and 4 of a frame by itself, or 0.
pub fn frame_refusal(acf: &[i64], lags: &[i64], scal: i64) -> i64 {
    if !(0..=4).contains(&scal) {
        2
    } else if acf[0] < 0 || acf.iter().any(|x| x.abs() > acf[0]) {
        3
    } else if lags.iter().any(|n| !(40..=120).contains(n)) {
        4
    } else {
        0
    }
}

fn refused(refusal: i64, memory: &Memory) -> Answer {
    Answer { refusal, vad: 0, vvad: 0, acf0: (0, 0), pvad: (0, 0), way: None, next: memory.clone() }
}

/// One frame of the uplink.
pub fn step(acf: &[i64], lags: &[i64], scal: i64, memory: &Memory) -> Answer {
    either(acf, lags, scal, None, memory)
}

/// One frame of the downlink, with its samples.
pub fn downlink(acf: &[i64], lags: &[i64], scal: i64, samples: &[i64], memory: &Memory) -> Answer {
    either(acf, lags, scal, Some(samples), memory)
}

/// One frame of either direction: the uplink has no samples.
fn either(acf: &[i64], lags: &[i64], scal: i64, samples: Option<&[i64]>, memory: &Memory) -> Answer {
    let refusal = if acf.len() != 9 || lags.len() != 4 {
        1
    } else if samples.map_or(false, |sof| sof.len() != SAMPLES) {
        8
    } else if !memory.valid() {
        5
    } else {
        frame_refusal(acf, lags, scal)
    };
    if refusal != 0 {
        return refused(refusal, memory);
    }
    let mut s = memory.clone();

    // 6.1
    let (mut acf0, mut pvad) = ((-32768, 0), (-32768, 0));
    if acf[0] != 0 {
        let a = norm(acf[0]);
        let sacf: Vec<i64> = acf.iter().map(|x| shr(shl(*x, a), 19)).collect();
        acf0 = (32 + 2 * scal - a, 8 * sacf[0]);
        let mut l = 0;
        for i in 1..9 {
            l = l_add(l, l_mult(sacf[i], s.rvad[i]));
        }
        l = l_add(l, shr(l_mult(sacf[0], s.rvad[0]), 1));
        if l <= 0 {
            l = 1;
        }
        let p = norm(l);
        pvad = (acf0.0 + 14 - s.normrvad - p, shr(shl(l, p), 16));
    }

    // 6.2
    let (av0, av1) = averages(acf, scal, &mut s);

    // 6.3
    let aav1 = step_up(&schur(&av1));
    let mut work = [0i64; 9];
    for i in 0..9 {
        for k in 0..9 - i {
            work[i] = l_add(work[i], l_mult(aav1[k], aav1[k + i]));
        }
    }
    let normrav1 = norm(work[0]);
    let mut rav1 = [0i64; 9];
    for i in 0..9 {
        rav1[i] = shr(shl(work[i], normrav1), 16);
    }

    // 6.4
    let dm = measure(&av0, &rav1, normrav1);
    let mut moved = l_sub(dm, s.lastdm);
    s.lastdm = dm;
    if moved < 0 {
        moved = l_sub(0, moved);
    }
    let stat = l_sub(moved, 3277) < 0;

    // 6.5
    let ptch = s.oldlagcount + s.veryoldlagcount >= 4;

    // 6.6, with the flag of the frame before, which the uplink does not have
    let tone_before = samples.is_some() && s.tone == 1;
    let way = if acf0 < (19, 18750) {
        (s.e_thvad, s.m_thvad) = (20, 25000);
        Way::Floor
    } else if ptch || !stat || tone_before {
        s.adaptcount = 0;
        if ptch {
            Way::Periodic
        } else if !stat {
            Way::Unsteady
        } else {
            Way::Tone
        }
    } else {
        s.adaptcount += 1;
        if s.adaptcount > 8 {
            (s.e_thvad, s.m_thvad) = adapt((s.e_thvad, s.m_thvad), pvad);
            s.rvad = rav1;
            s.normrvad = normrav1;
            s.adaptcount = 9;
            Way::Adapted
        } else {
            Way::Waiting(s.adaptcount)
        }
    };

    // 6.7
    let vvad = pvad > (s.e_thvad, s.m_thvad);

    // 6.8
    s.burstcount = if vvad { s.burstcount + 1 } else { 0 };
    if s.burstcount >= 3 {
        s.hangcount = 5;
        s.burstcount = 3;
    }
    let vad = vvad || s.hangcount >= 0;
    if s.hangcount >= 0 {
        s.hangcount -= 1;
    }

    // 6.9
    let mut count = 0;
    for lag in lags {
        let (low, high) = (s.oldlag.min(*lag), s.oldlag.max(*lag));
        let rest = high % low;
        if rest.min(low - rest) < 2 {
            count += 1;
        }
        s.oldlag = *lag;
    }
    s.veryoldlagcount = s.oldlagcount;
    s.oldlagcount = count;

    // 6.10
    s.tone = samples.map_or(0, |sof| tone(sof) as i64);

    Answer { refusal: 0, vad: vad as i64, vvad: vvad as i64, acf0, pvad, way: Some(way), next: s }
}

/// 6.2: the average of this frame and the three before it, and the one of four frames before.
fn averages(acf: &[i64], scal: i64, s: &mut Memory) -> ([i64; 9], [i64; 9]) {
    let (mut av0, mut av1) = ([0; 9], [0; 9]);
    for i in 0..9 {
        let temp = shr(acf[i], 10 - 2 * scal);
        av0[i] = l_add(s.l_sacf[i], temp);
        av0[i] = l_add(s.l_sacf[i + 9], av0[i]);
        av0[i] = l_add(s.l_sacf[i + 18], av0[i]);
        s.l_sacf[s.pt_sacf as usize + i] = temp;
        av1[i] = s.l_sav0[s.pt_sav0 as usize + i];
        s.l_sav0[s.pt_sav0 as usize + i] = av0[i];
    }
    s.pt_sacf = if s.pt_sacf == 18 { 0 } else { s.pt_sacf + 9 };
    s.pt_sav0 = if s.pt_sav0 == 27 { 0 } else { s.pt_sav0 + 9 };
    (av0, av1)
}

/// 6.3.1 and 6.10.3: the reflection coefficients, from 1 on, one fewer than the autocorrelations.
fn schur<const N: usize>(l_acf: &[i64; N]) -> [i64; N] {
    let mut rc = [0; N];
    if l_acf[0] == 0 {
        return rc;
    }
    let temp = norm(l_acf[0]);
    let mut p = [0i64; N];
    let mut k = [0i64; N];
    for i in 0..N {
        p[i] = shr(shl(l_acf[i], temp), 16);
    }
    for i in 1..N - 1 {
        k[N - i] = p[i];
    }
    for n in 1..N {
        if p[0] < abs(p[1]) {
            return rc;
        }
        rc[n] = div(abs(p[1]), p[0]);
        if p[1] > 0 {
            rc[n] = sub(0, rc[n]);
        }
        if n == N - 1 {
            return rc;
        }
        p[0] = add(p[0], mult_r(p[1], rc[n]));
        for m in 1..N - n {
            let (x, y) = (p[m + 1], k[N - m]);
            p[m] = add(x, mult_r(y, rc[n]));
            k[N - m] = add(y, mult_r(x, rc[n]));
        }
    }
    rc
}

/// 6.3.2: aav1[0..8].
fn step_up(vpar: &[i64; 9]) -> [i64; 9] {
    let mut coef = [0i64; 9];
    coef[0] = 16384 << 15;
    coef[1] = vpar[1] << 14;
    for m in 2..9 {
        let before = coef;
        for i in 1..m {
            coef[i] = l_add(before[i], l_mult(vpar[m], shr(before[m - i], 16)));
        }
        coef[m] = vpar[m] << 14;
    }
    let mut aav1 = [0; 9];
    for i in 0..9 {
        aav1[i] = shr(coef[i], 19);
    }
    aav1
}

/// 6.4: L_dm.
fn measure(av0: &[i64; 9], rav1: &[i64; 9], normrav1: i64) -> i64 {
    let mut sav0 = [4095i64; 9];
    if av0[0] != 0 {
        let shift = norm(av0[0]);
        for i in 0..9 {
            sav0[i] = shr(shl(av0[i], shift - 3), 16);
        }
    }
    let mut sum = 0;
    for i in 1..9 {
        sum = l_add(sum, l_mult(rav1[i], sav0[i]));
    }
    let size = if sum < 0 { l_sub(0, sum) } else { sum };
    let mut dm = 0;
    let mut shift = 0;
    if size != 0 {
        let first = sav0[0] << 3;
        shift = norm(size);
        let temp = shr(shl(size, shift), 16);
        dm = if first >= temp { div(temp, first) } else { 32768 + div(temp - first, first) } << 1;
        if sum < 0 {
            dm = -dm;
        }
    }
    dm = shr(shl(dm, 14), shift);
    dm = l_add(dm, rav1[0] << 11);
    shr(dm, normrav1)
}

/// 6.6: the new threshold.
fn adapt(thvad: (i64, i64), pvad: (i64, i64)) -> (i64, i64) {
    let halved = |e: i64, m: i64| if m > 32767 { (e + 1, m >> 1) } else { (e, m) };
    let (mut e, mut m) = thvad;
    m -= m >> 5;
    if m < 16384 {
        m <<= 1;
        e -= 1;
    }
    let top = halved(pvad.0 + 1, (3 * pvad.1) >> 1);
    if (e, m) < top {
        (e, m) = halved(e, m + (m >> 4)).min(top);
    }
    let cap = if pvad.0 == 27 {
        (28, (pvad.1 + 19531) >> 1)
    } else if pvad.0 > 27 {
        halved(pvad.0, pvad.1 + (19531 >> (pvad.0 - 27).min(40)))
    } else {
        halved(27, 19531 + (pvad.1 >> (27 - pvad.0).min(40)))
    };
    (e, m).min(cap)
}

/// Table 3.2: the first half of the window; the second is the same, from its end.
const HANN: [i64; 80] = [
    0, 12, 51, 114, 204, 318, 458, 622, 811, 1025,
    1262, 1523, 1807, 2114, 2444, 2795, 3167, 3560, 3972, 4405,
    4856, 5325, 5811, 6314, 6832, 7365, 7913, 8473, 9046, 9631,
    10226, 10831, 11444, 12065, 12693, 13326, 13964, 14607, 15251, 15898,
    16545, 17192, 17838, 18482, 19122, 19758, 20389, 21014, 21631, 22240,
    22840, 23430, 24009, 24575, 25130, 25670, 26196, 26707, 27201, 27679,
    28139, 28581, 29003, 29406, 29789, 30151, 30491, 30809, 31105, 31377,
    31626, 31852, 32053, 32230, 32382, 32509, 32611, 32688, 32739, 32764,
];

/// 6.10: whether the samples of a frame are a tone.
pub fn tone(sof: &[i64]) -> bool {
    let rc = reflected(sof);
    pole(&rc) && sub(prederr(&rc), 1464) < 0
}

/// 6.10.1 to 6.10.3: the reflection coefficients of the samples.
fn reflected(sof: &[i64]) -> [i64; 5] {
    // 6.10.1
    let mut sofh = [0i64; SAMPLES];
    for i in 0..80 {
        sofh[i] = mult_r(sof[i], HANN[i]);
        sofh[159 - i] = mult_r(sof[159 - i], HANN[i]);
    }

    // 6.10.2: a positive scalauto makes the samples smaller
    let smax = sofh.iter().map(|x| abs(*x)).fold(0, i64::max);
    let scalauto = if smax == 0 { 0 } else { sub(4, norm(smax << 16)) };
    if scalauto > 0 {
        let temp = 16384 >> (scalauto - 1);
        for x in &mut sofh {
            *x = mult_r(*x, temp);
        }
    }
    let mut l_acfh = [0i64; 5];
    for k in 0..5 {
        for i in k..SAMPLES {
            l_acfh[k] = l_add(l_acfh[k], l_mult(sofh[i], sofh[i - k]));
        }
    }

    // 6.10.3
    schur(&l_acfh)
}

/// 6.10.4 and 6.10.5: whether the pole is complex, and not below 385 Hz.
fn pole(rc: &[i64; 5]) -> bool {
    let temp = shr(rc[1], 2);
    let a1 = add(temp, mult_r(rc[2], temp));
    let a2 = shr(rc[2], 2);
    let l_den = l_mult(a1, a1);
    let l_num = l_sub(shl(a2, 16), l_den);
    if l_num <= 0 {
        return false;
    }
    if a1 < 0 && l_sub(l_num, l_mult(shr(l_den, 16), 3189)) < 0 {
        return false;
    }
    true
}

/// 6.10.6: the prediction error.
fn prederr(rc: &[i64; 5]) -> i64 {
    let mut prederr = 32767;
    for i in 1..5 {
        prederr = mult(prederr, sub(32767, mult(rc[i], rc[i])));
    }
    prederr
}

// ---- trace lines

/// What a digit is worth.
fn digit(b: u8) -> Option<i64> {
    b"0123456789ABCDEF".iter().position(|d| *d == b).map(|v| v as i64)
}

/// A line with its line feed: the frame, or refusal 6, 2, 3 or 4.
pub fn decode(line: &[u8]) -> Result<(Vec<i64>, Vec<i64>, i64), i64> {
    if line.len() != LINE || line[81] != b'\n' {
        return Err(6);
    }
    let mut digits = Vec::with_capacity(81);
    for b in &line[..81] {
        digits.push(digit(*b).ok_or(6)?);
    }
    let number = |at: usize, n: usize| digits[at..at + n].iter().fold(0i64, |x, d| 16 * x + d);
    let acf: Vec<i64> = (0..9).map(|i| number(8 * i, 8) as u32 as i32 as i64).collect();
    let lags: Vec<i64> = (0..4).map(|i| number(73 + 2 * i, 2)).collect();
    let scal = number(72, 1);
    match frame_refusal(&acf, &lags, scal) {
        0 => Ok((acf, lags, scal)),
        n => Err(n),
    }
}

/// The samples of a frame, as many as are there: two bytes each, the low one first. The frames are counted from 0.
pub fn samples_of(samples: &[u8], frame: usize) -> Vec<i64> {
    let bytes = samples.chunks(2 * SAMPLES).nth(frame).unwrap_or(&[]);
    bytes.chunks_exact(2).map(|b| i16::from_le_bytes([b[0], b[1]]) as i64).collect()
}

/// Hands on the answer to each line of a trace: of the uplink, or with samples of the downlink, where a refused line has its samples too.
fn answers(trace: &[u8], samples: Option<&[u8]>, mut hand: impl FnMut(&Answer)) {
    let mut memory = Memory::reset();
    for (frame, line) in trace.split_inclusive(|b| *b == b'\n').enumerate() {
        let answer = match decode(line) {
            Ok((acf, lags, scal)) => either(&acf, &lags, scal, samples.map(|s| samples_of(s, frame)).as_deref(), &memory),
            Err(n) => refused(n, &memory),
        };
        hand(&answer);
        memory = answer.next;
    }
}

/// The answers to a whole trace of the uplink.
pub fn run(trace: &[u8]) -> Vec<u8> {
    let mut out = Vec::with_capacity(trace.len() / LINE * 4 + 4);
    answers(trace, None, |a| out.extend([48 + a.refusal as u8, 48 + a.vad as u8, 48 + a.vvad as u8, b'\n']));
    out
}

/// The answers to a whole trace of the downlink, each with the flag that is kept for the next frame.
pub fn run_downlink(trace: &[u8], samples: &[u8]) -> Vec<u8> {
    let mut out = Vec::with_capacity(trace.len() / LINE * 5 + 5);
    answers(trace, Some(samples), |a| out.extend([48 + a.refusal as u8, 48 + a.vad as u8, 48 + a.vvad as u8, 48 + a.next.tone as u8, b'\n']));
    out
}

// ---- a card

/// The answers to a whole trace of a card. A line has two digits that name a channel and then a line of the uplink, which is a call; or a line feed
/// alone, which resets the channel. What is neither is refused with 6, and of the others a channel that the card has not with 9, before all else.
pub fn run_card(trace: &[u8]) -> Vec<u8> {
    let mut out = Vec::with_capacity(trace.len() / (LINE + 2) * 4 + 4);
    let mut card = vec![Memory::reset(); CHANNELS];
    for line in trace.split_inclusive(|b| *b == b'\n') {
        let (name, rest) = line.split_at(line.len().min(2));
        let channel = match name {
            [high, low] => digit(*high).zip(digit(*low)).map(|(high, low)| (16 * high + low) as usize),
            _ => None,
        };
        let reset = rest == b"\n";
        let frame = decode(rest);
        let (refusal, vad, vvad) = match (channel, frame) {
            (None, _) => (6, 0, 0),
            (_, Err(6)) if !reset => (6, 0, 0),
            (Some(channel), _) if channel >= CHANNELS => (9, 0, 0),
            (Some(channel), _) if reset => {
                card[channel] = Memory::reset();
                (0, 0, 0)
            }
            (_, Err(n)) => (n, 0, 0),
            (Some(channel), Ok((acf, lags, scal))) => {
                let memory = &mut card[channel];
                let answer = step(&acf, &lags, scal, memory);
                *memory = answer.next;
                (answer.refusal, answer.vad, answer.vvad)
            }
        };
        out.extend([48 + refusal as u8, 48 + vad as u8, 48 + vvad as u8, b'\n']);
    }
    out
}

// ---- a night's totals

/// Accepted frames, those with vvad, those kept only by hangover, quiet ones, and refused lines.
pub type Totals = [u64; 5];

/// The totals with those of a trace, and 0; or 7 and the totals reached at the line that would be number 4,294,967,296.
pub fn totals(so_far: Totals, trace: &[u8]) -> (i64, Totals) {
    let [mut accepted, mut speech, mut held, mut quiet, mut refused] = so_far;
    let mut number = 0;
    answers(trace, None, |a| {
        if number == 7 || accepted + refused >= MOST {
            number = 7;
            return;
        }
        if a.refusal != 0 {
            refused += 1;
            return;
        }
        accepted += 1;
        *(if a.vvad == 1 {
            &mut speech
        } else if a.vad == 1 {
            &mut held
        } else {
            &mut quiet
        }) += 1;
    });
    (number, [accepted, speech, held, quiet, refused])
}

/// The line of the report.
pub fn report(totals: Totals) -> Vec<u8> {
    let mut line: String = totals.iter().map(|n| format!("{n:08X}")).collect();
    line.push('\n');
    line.into_bytes()
}

// ---- why a frame was sent

impl std::fmt::Display for Way {
    fn fmt(&self, f: &mut std::fmt::Formatter) -> std::fmt::Result {
        match self {
            Way::Floor => f.write_str("floor"),
            Way::Periodic => f.write_str("periodic"),
            Way::Unsteady => f.write_str("unsteady"),
            Way::Tone => f.write_str("tone"),
            Way::Waiting(count) => write!(f, "waiting {count}"),
            Way::Adapted => f.write_str("adapted"),
        }
    }
}

/// The place, counted from 1, at which the latest three raw flags in a row that are set end. It is looked for in the flags, and not counted along.
fn burst_end(raw: &[bool]) -> u64 {
    (3..=raw.len()).rev().find(|end| raw[end - 3..*end] == [true; 3]).expect("a burst before its hangover") as u64
}

/// Why each frame of a trace was sent or not, and its way, a line for each line; `so_far` frames were accepted before. The trace is of the uplink, or
/// with samples of the downlink. Past the limit the state still changes, which shows in nothing: no frame is explained there.
pub fn why(so_far: u64, trace: &[u8], samples: Option<&[u8]>) -> Vec<u8> {
    let mut out = String::new();
    let mut raw = Vec::new();
    answers(trace, samples, |a| {
        let text = match &a.way {
            None => format!("refused {}\n", a.refusal),
            Some(_) if so_far + raw.len() as u64 >= MOST => "refused 7\n".to_string(),
            Some(way) => {
                raw.push(a.vvad == 1);
                let number = so_far + raw.len() as u64;
                match (a.vvad, a.vad) {
                    (1, _) => format!("{number} energy {way}\n"),
                    (_, 1) => format!("{number} hangover {} {way}\n", so_far + burst_end(&raw)),
                    _ => format!("{number} quiet {way}\n"),
                }
            }
        };
        out += &text;
    });
    out.into_bytes()
}
