//! speed: nanoseconds a frame, of the C interface and of the published Rust, on the same frames.
//!
//! The rounds alternate: C, the Rust behind document 01's interface (`Meter::call`), and the Rust's own poll
//! alone (`poll_power`, without the tests of time and length, the copy that refusal 6 is undone by, and the
//! catching of panics). After each round all that was counted is compared.

use pworacle::dmm::Desc;
use pworacle::hy3131 as hy;
use pworacle::iface::{Ask, Call, Meter};
use std::ffi::{c_char, CStr};
use std::hint::black_box;
use std::time::Instant;

const FRAMES: usize = 5_000;
const ROUNDS: usize = 101;

#[repr(C)]
struct Kind {
    name: *const c_char,
    coupling: u8,
    alt: bool,
    job: u8,
    refusal: u8,
}

#[repr(C)]
#[derive(Clone, Copy)]
struct Frame {
    time: u64,
    flags: u8,
    length: u8,
    bytes: [u8; 14],
}

#[repr(C)]
#[derive(Clone, Copy, Default, PartialEq, Debug)]
struct Figures {
    e: i64,
    va: i64,
    t_int: u64,
    readings: u64,
    refused: u64,
    used: u64,
}

extern "C" {
    fn speed_kinds() -> usize;
    fn speed_kind(k: usize) -> *const Kind;
    fn speed_make_frames(k: usize, frames: *mut Frame, count: usize);
    fn speed_start(k: usize);
    fn speed_frames(frames: *const Frame, count: usize);
    fn speed_figures() -> Figures;
}

/// The meter that speed_start makes.
fn start(kind: &Kind) -> Meter {
    let d = Desc { mv_div: [10.0, 1.0], shunt: [0.01, 0.0005, 0.0000475], over: 1.03, a_auto: false };
    let mut m = Meter::make(d, &[0; 73], false).ok().expect("a meter");
    m.call(&Call::Ranges(0, Ask::Fix(1), Ask::Fix(4)));
    m.call(&Call::Ranges(1, Ask::Auto, Ask::Auto));
    m.call(&Call::Coupling(2, kind.coupling));
    m.call(&Call::Method(3, kind.alt));
    if kind.refusal != 1 {
        m.call(&Call::On(4));
    }
    m
}

fn start_job(m: &mut Meter, kind: &Kind, time: u64) {
    let a = m.call(&if kind.job == 1 { Call::Zero(time) } else { Call::Gain(time) });
    assert_eq!(a.refusal, 0);
}

fn figures(m: &Meter, mut f: Figures) -> Figures {
    let (e, _, va, _, t_int, ..) = m.d.pw.account_state();
    (f.e, f.va, f.t_int) = (e, va, t_int);
    f
}

/// Seconds and figures of the C interface.
fn c_round(k: usize, frames: &[Frame]) -> (f64, Figures) {
    unsafe { speed_start(k) };
    let start = Instant::now();
    unsafe { speed_frames(frames.as_ptr(), frames.len()) };
    (start.elapsed().as_secs_f64(), unsafe { speed_figures() })
}

/// Seconds and figures of the Rust behind the interface. The calls are made beforehand.
fn call_round(kind: &Kind, calls: &[(u64, Call)]) -> (f64, Figures) {
    let mut m = start(kind);
    let mut f = Figures::default();
    let begin = Instant::now();
    for (time, c) in calls {
        if kind.job != 0 && m.d.pw.job == 0 {
            start_job(&mut m, kind, *time);
        }
        let a = black_box(m.call(c));
        f.readings += a.reading.is_some() as u64;
        f.refused += (a.refusal != 0) as u64;
        f.used += a.used as u64;
    }
    let took = begin.elapsed().as_secs_f64();
    (took, figures(&m, f))
}

/// Seconds and figures of the Rust's own poll. It knows no refusal, and no count of ready frames.
fn poll_round(kind: &Kind, frames: &[Frame]) -> (f64, Figures) {
    let mut m = start(kind);
    let mut f = Figures::default();
    let begin = Instant::now();
    for frame in frames {
        if kind.job != 0 && m.d.pw.job == 0 {
            start_job(&mut m, kind, frame.time);
        }
        hy::set_frame(frame.flags, &frame.bytes);
        m.d.t_poll = frame.time;
        let reading = black_box(m.d.o_poll_power(frame.time));
        f.readings += reading.is_some() as u64;
    }
    let took = begin.elapsed().as_secs_f64();
    (took, figures(&m, f))
}

/// Best and median in nanoseconds a frame.
fn summary(mut took: Vec<f64>) -> (f64, f64) {
    took.sort_by(f64::total_cmp);
    (took[0] * 1e9 / FRAMES as f64, took[took.len() / 2] * 1e9 / FRAMES as f64)
}

fn measure(k: usize) {
    let kind = unsafe { &*speed_kind(k) };
    let mut frames = vec![Frame { time: 0, flags: 0, length: 0, bytes: [0; 14] }; FRAMES];
    unsafe { speed_make_frames(k, frames.as_mut_ptr(), frames.len()) };
    let calls: Vec<(u64, Call)> =
        frames.iter().map(|f| (f.time, Call::Frame(f.time, f.flags, f.bytes[..f.length as usize].to_vec()))).collect();
    let (mut c, mut call, mut poll) = (vec![], vec![], vec![]);
    for _ in 0..ROUNDS {
        let (took, of_c) = c_round(k, &frames);
        c.push(took);
        let (took, of_call) = call_round(kind, &calls);
        call.push(took);
        assert_eq!(of_c, of_call, "C and Rust count differently");
        if kind.refusal == 0 {
            let (took, of_poll) = poll_round(kind, &frames);
            poll.push(took);
            assert_eq!(Figures { used: of_c.used, ..of_poll }, of_c, "C and the Rust's poll count differently");
        }
    }
    let name = unsafe { CStr::from_ptr(kind.name) }.to_str().unwrap();
    let ((c, c_mid), (call, call_mid)) = (summary(c), summary(call));
    print!("{name:<16} {c:7.1} {c_mid:7.1}   {call:7.1} {call_mid:7.1}   {:5.2}", c / call);
    if poll.is_empty() {
        println!("   {:>7} {:>7}   {:>5}", "-", "-", "-");
    } else {
        let (poll, poll_mid) = summary(poll);
        println!("   {poll:7.1} {poll_mid:7.1}   {:5.2}", c / poll);
    }
}

fn main() {
    println!("Nanoseconds a frame, {FRAMES} frames, {ROUNDS} rounds of each in turn: the best, the median; ratios of the best.");
    println!("{:<16} {:^15}   {:^15}   {:>5}   {:^15}   {:>5}", "frames", "C", "Rust, call", "ratio", "Rust, poll alone", "ratio");
    for k in 0..unsafe { speed_kinds() } {
        measure(k);
    }
}
