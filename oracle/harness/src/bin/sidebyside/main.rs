//! The port beside other stacks: every contender reads the same stream of frames, in one process, taking turns.
//!
//! sidebyside                           a line for each stream and contender: payload, name, nanoseconds a Transfer (best and median), megabytes a second (best), and
//!                                      the ratios of the best times, to copying and to the port from C
//! sidebyside NAME PAYLOAD TRANSFERS    one contender reads one stream once and prints nothing: for a tool that counts instructions
//!
//! port/1, port/255 and port/65535 are the port with so many sessions, on a stream of their own that has them; everybody else reads eight. They have the shortest payload only.
//! bin/sidebyside makes a table of both. After each round the contender must have seen every Transfer, in the right session and with the right length, or the run fails.

#[allow(dead_code)] // Frames are made as the harness makes them; its events are not used here.
#[path = "../../events.rs"]
mod events;
mod port;
mod proton;
mod rust;
mod stream;

use std::collections::BTreeMap;

use stream::{Stream, SESSIONS};

const PAYLOADS: [usize; 3] = [26, 256, 1024];
/// The port with so many sessions.
const CROWDS: [(&str, usize); 3] = [("port/1", 1), ("port/255", 255), ("port/65535", 65535)];
const TRANSFERS: usize = 4000;
const ROUNDS: usize = 60;

/// Somebody who reads a stream.
pub trait Contender {
    /// Begins anew, and goes to where the Transfers start.
    fn set_up(&mut self, stream: &Stream);
    /// Reads the rest: this is measured.
    fn read(&mut self, stream: &Stream);
    /// Panics where it did not see what is there.
    fn check(&mut self, stream: &Stream);
}

fn contenders() -> Vec<(&'static str, Box<dyn Contender>)> {
    vec![
        ("memcpy", Box::new(port::Copy::default())),
        #[cfg(feature = "frame-reader")]
        ("codec", Box::new(port::Codec::default())),
        ("port", Box::new(port::Port::default())),
        ("proton", Box::new(proton::Engine::new())),
        ("proton-data", Box::new(proton::Decoder::new())),
        ("rust", Box::new(rust::Rust::default())),
    ]
}

/// The processor time of this thread, in nanoseconds.
fn now() -> i64 {
    const THREAD_TIME: i32 = 3;
    extern "C" {
        fn clock_gettime(clock: i32, time: *mut [i64; 2]) -> i32;
    }
    let mut time = [0; 2];
    assert_eq!(unsafe { clock_gettime(THREAD_TIME, &mut time) }, 0, "a clock");
    time[0] * 1_000_000_000 + time[1]
}

/// What is measured, under a name by which a tool can count it alone.
#[export_name = "measured"]
#[inline(never)]
fn measured(contender: &mut dyn Contender, stream: &Stream) {
    contender.read(stream);
}

/// Who reads a stream, and how many sessions it has.
struct Place {
    name: &'static str,
    contender: Box<dyn Contender>,
    sessions: usize,
}

fn places() -> Vec<Place> {
    let all = contenders().into_iter().map(|(name, contender)| Place { name, contender, sessions: SESSIONS });
    let crowds = CROWDS.into_iter().map(|(name, sessions)| Place { name, contender: Box::new(port::Port::default()), sessions });
    all.chain(crowds).collect()
}

/// All contenders on streams with one payload, round by round, each in its turn.
fn measure(payload: usize) {
    let mut places = places();
    places.retain(|place| place.sessions == SESSIONS || payload == PAYLOADS[0]);
    let streams: BTreeMap<_, _> = places.iter().map(|place| (place.sessions, Stream::new(TRANSFERS, payload, place.sessions))).collect();
    let mut times = vec![Vec::new(); places.len()];
    for _ in 0..ROUNDS {
        for (place, times) in places.iter_mut().zip(&mut times) {
            let stream = &streams[&place.sessions];
            place.contender.set_up(stream);
            let start = now();
            measured(place.contender.as_mut(), stream);
            times.push((now() - start) as f64);
            place.contender.check(stream);
        }
    }
    times.iter_mut().for_each(|times| times.sort_by(f64::total_cmp));
    let best = |name| times[places.iter().position(|place| place.name == name).expect("a contender")][0];
    for (Place { name, sessions, .. }, times) in places.iter().zip(&times) {
        let (least, middle, each) = (times[0], times[ROUNDS / 2], TRANSFERS as f64);
        let speed = streams[sessions].measured().len() as f64 / least * 1e3;
        print!("{payload} {name} {:.1} {:.1} {speed:.0} ", least / each, middle / each);
        println!("{:.1} {:.3}", least / best("memcpy"), least / best("port"));
    }
}

fn one(name: &str, payload: &str, transfers: &str) -> Option<()> {
    let Place { mut contender, sessions, .. } = places().into_iter().find(|place| place.name == name)?;
    let stream = Stream::new(transfers.parse().ok()?, payload.parse().ok()?, sessions);
    contender.set_up(&stream);
    measured(contender.as_mut(), &stream);
    Some(())
}

fn main() {
    let arguments: Vec<String> = std::env::args().skip(1).collect();
    match &arguments[..] {
        [] => PAYLOADS.into_iter().for_each(measure),
        [name, payload, transfers] if one(name, payload, transfers).is_some() => {}
        _ => {
            eprintln!("usage: sidebyside [NAME PAYLOAD TRANSFERS]");
            std::process::exit(2);
        }
    }
}
