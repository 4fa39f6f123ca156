// What the pictures show, as lines of numbers. docs/pictures/draw appends this to compare/second.rs, or to a copy with an error in it.

/// Document 01, 'Distance of the energy', for a frame that is not all zero: the exact energy and the distance in the units of pvad and thvad, and
/// the filter sum L before it is replaced. The distance is 0 where L is not positive: none is stated there.
fn exact(acf: &[i64], scal: i64, s: &Memory) -> (f64, f64, i64) {
    let a = norm(acf[0]);
    let sacf: Vec<i64> = acf.iter().map(|x| shr(shl(*x, a), 19)).collect();
    let through = |x: &[i64]| s.rvad[0] * x[0] + 2 * (1..9).map(|i| s.rvad[i] * x[i]).sum::<i64>();
    let weight = s.rvad[0] + 2 * s.rvad[1..].iter().map(|x| x.abs()).sum::<i64>();
    let sum = through(&sacf);
    let p = norm(sum);
    let units = 2 * scal - 4 - s.normrvad;
    let distance = (1i64 << p) as f64 * (524287 * weight) as f64 + 524288.0 * 65535.0;
    let distance = if sum > 0 { distance * 2f64.powi((units - a - p) as i32) } else { 0.0 };
    (through(acf) as f64 * 2f64.powi(units as i32), distance, sum)
}

fn worth(e: i64, m: i64) -> f64 {
    m as f64 * 2f64.powi(e as i32 - 15)
}

/// A trace, a line for each accepted frame: number, vad, vvad, hangcount, adaptcount, pvad, thvad, exact energy, distance, L.
fn frames(path: &str) {
    let mut s = Memory::reset();
    for (i, line) in std::fs::read(path).expect("the trace").split_inclusive(|b| *b == b'\n').enumerate() {
        if let Ok((acf, lags, scal)) = decode(line) {
            let r = step(&acf, &lags, scal, &s);
            let (energy, distance, sum) = if acf[0] == 0 { (0.0, 0.0, 0) } else { exact(&acf, scal, &s) };
            s = r.next;
            let (pvad, thvad) = (worth(r.pvad.0.max(-100), r.pvad.1), worth(s.e_thvad, s.m_thvad));
            print!("{} {} {} {} {} ", i + 1, r.vad, r.vvad, s.hangcount, s.adaptcount);
            println!("{pvad:.6} {thvad:.6} {energy:.6} {distance:.6} {sum}");
        }
    }
}

/// x << 30 for small x: as 6.3.1 has it, and saturated.
fn shifts() {
    for x in -8..=8 {
        println!("{x} {} {}", shl(x, 30), sat32(x << 30));
    }
}

/// Whether a lag counts beside the one before it, by 6.9: of four lags that are the same, the last three always do.
fn lags(before: i64) {
    for lag in 40..=120 {
        let s = Memory { oldlag: before, ..Memory::reset() };
        let r = step(&[1, 0, 0, 0, 0, 0, 0, 0, 0], &[lag; 4], 0, &s);
        println!("{lag} {}", r.next.oldlagcount - 3);
    }
}

/// 6.10 of one frame of each tone from 100 to 3900 Hz, 8000 sin(2π·f·i/8000), rounded: f, the prediction error, whether the pole test is passed, the flag.
fn sweep() {
    for f in (100..=3900).step_by(10) {
        let sample = |i: usize| (8000.0 * (2.0 * std::f64::consts::PI * (f * i) as f64 / 8000.0).sin()).round() as i64;
        let sof: Vec<i64> = (0..SAMPLES).map(sample).collect();
        let rc = reflected(&sof);
        println!("{f} {} {} {}", prederr(&rc), pole(&rc) as u8, tone(&sof) as u8);
    }
}

fn main() {
    let words: Vec<String> = std::env::args().collect();
    match words[1].as_str() {
        "frames" => frames(&words[2]),
        "shifts" => shifts(),
        "sweep" => sweep(),
        "lags" => lags(words[2].parse().expect("a lag")),
        word => panic!("what is {word}?"),
    }
}
