//! Differential runs of the Rust and the port.
//!
//! harness check              closure, lists 2, limits, full, random 4000 and loops 2; a rule that never occurred is a finding
//! harness closure            every event of the alphabet in every reachable account of both roles
//! harness lists LENGTH       every list of events up to LENGTH, from Start and from Opened, both roles
//! harness random COUNT [SEED [LENGTH]]   COUNT random lists from SEED (1) on, of up to LENGTH (300) events each, four times as many with a crowd of
//!                            sessions; COUNT 1 replays a seed
//! harness limits             the limits after the Rust's own opening, beside the port's
//! harness full               every channel taken, tied, freed and untied, at channel-maxes up to 65,535, both roles
//! harness loops LENGTH       the Rust's functions one by one beside its own loop, on every list up to LENGTH from seven beginnings
//! harness record             a sample of lists with their answers, as text
//!
//! With `--frames FILE` at the end, every header and frame that the port wrote is written to FILE, each once and without a Transfer's payload.
//!
//! The port is the archive where the harness is built with it, else the definition in plain Rust.

mod alphabet;
#[cfg(feature = "port")]
mod archive;
mod compare;
#[cfg(not(feature = "port"))]
mod definition;
mod events;
mod full;
mod loops;
mod random;
mod record;
mod ties;

use std::collections::{BTreeMap, HashSet, VecDeque};
use std::process::exit;

use alphabet::alphabet;
use compare::{keep_written, kept_written, note_written, Pair, Rule, RULES};
use events::{Event, Port};
use fe2o3_amqp::auth::{Account, Oracle, Role, Settings};

#[cfg(feature = "port")]
type Side = archive::Archive;
#[cfg(not(feature = "port"))]
type Side = definition::Definition;

#[cfg(feature = "port")]
const SIDE: &str = "the archive";
#[cfg(not(feature = "port"))]
const SIDE: &str = "the definition in plain Rust (no archive)";

type Letters = Vec<(&'static str, Event)>;

const STATES: [&str; 14] = [
    "Start",
    "HeaderReceived",
    "HeaderSent",
    "HeaderExchange",
    "OpenPipe",
    "OpenClosePipe",
    "OpenReceived",
    "OpenSent",
    "ClosePipe",
    "Opened",
    "CloseReceived",
    "CloseSent",
    "Discarding",
    "End",
];

/// How many findings are shown.
const SHOWN: u64 = 8;

/// Totals of a run.
#[derive(Default)]
struct Tally {
    lists: u64,
    events: u64,
    rules: BTreeMap<Rule, u64>,
    findings: u64,
}

impl Tally {
    fn count(&mut self, rules: &[Rule]) {
        for rule in rules {
            *self.rules.entry(*rule).or_default() += 1;
        }
    }

    fn times(&self, rule: Rule) -> u64 {
        self.rules.get(&rule).copied().unwrap_or(0)
    }

    fn found(&mut self, what: &str) {
        self.findings += 1;
        if self.findings <= SHOWN {
            println!("FINDING {what}");
        }
    }

    fn report(&self, rules: bool) {
        for (rule, name, says) in RULES.into_iter().filter(|_| rules) {
            println!("  {:>9}  {name}: {says}", self.times(rule));
        }
        println!("{}", self.totals());
    }

    fn totals(&self) -> String {
        format!("{} lists, {} events, {} findings", self.lists, self.events, self.findings)
    }
}

fn settings() -> Settings {
    Settings { container_id: b"hub".to_vec(), max_frame_size: 1024, channel_max: 1, idle_time_out: None }
}

fn named(letters: &Letters, name: &str) -> usize {
    letters.iter().position(|(letter, _)| *letter == name).expect("a letter of the alphabet")
}

/// A pair after a list that is known to go on.
fn replay(role: Role, letters: &Letters, list: &[usize]) -> Pair<Side> {
    let settings = settings();
    let mut pair = Pair::new(role, &settings, Side::new(role, &settings));
    for at in list {
        let step = pair.pass(&letters[*at].1);
        assert!(step.is_ok_and(|step| !step.ends), "a list that went well before");
    }
    pair
}

/// One more event; whether the two sides can go on together.
fn last_step(pair: &mut Pair<Side>, role: Role, letters: &Letters, list: &[usize], at: usize, tally: &mut Tally) -> bool {
    tally.lists += 1;
    tally.events += 1;
    match pair.step(&letters[at].1) {
        Ok(step) => {
            tally.count(&step.rules);
            !step.ends
        }
        Err(what) => {
            let names: Vec<_> = list.iter().chain([&at]).map(|at| letters[*at].0).collect();
            tally.found(&format!("{role:?}: {}\n  {what}", names.join("; ")));
            false
        }
    }
}

type Key = (Account, Vec<(u16, u16)>, Vec<u16>, events::Status);

fn key(pair: &Pair<Side>) -> Key {
    (pair.rust.account(), pair.ties.made(), pair.rust.hand_out(), pair.port.status())
}

/// How many engines that wait or have stopped are tried with events that they do not take.
const FEW: usize = 40;

/// Every event in every account that can be reached. Lists that lead to the same account on both sides are continued once.
/// Of engines that wait for the Close, and of those that have stopped, only a few are given events that are refused for the phase alone.
fn closure(tally: &mut Tally) {
    let letters = alphabet();
    let taken = |at: usize| matches!(letters[at].1, Event::Incoming { .. } | Event::EndOfInput);
    for role in [Role::Dialler, Role::Listener] {
        let mut seen: HashSet<String> = HashSet::new();
        let mut open: VecDeque<(Vec<usize>, bool)> = VecDeque::from([(Vec::new(), true)]);
        let mut reached = [[0; 3]; STATES.len()];
        while let Some((list, every)) = open.pop_front() {
            let first = replay(role, &letters, &list);
            for at in (0..letters.len()).filter(|at| every || taken(*at)) {
                let mut pair = first.again(list.iter().map(|at| &letters[*at].1));
                tally.events += list.len() as u64;
                if last_step(&mut pair, role, &letters, &list, at, tally) && seen.insert(format!("{:?}", key(&pair))) {
                    let (state, phase) = (pair.port.status().state as usize, pair.port.status().phase as usize);
                    reached[state][phase] += 1;
                    let few = reached.iter().map(|counts| counts[phase]).sum::<usize>() <= FEW;
                    if phase != 2 || few {
                        open.push_back(([&list[..], &[at]].concat(), phase == 0 || few));
                    }
                }
            }
        }
        println!("{role:?}: {} accounts. State by state, those running, awaiting and stopped:", seen.len());
        for (state, counts) in STATES.iter().zip(reached) {
            println!("  {state:<15} {:>6} {:>6} {:>6}", counts[0], counts[1], counts[2]);
        }
    }
}

/// Every list up to a length after a beginning. A list is not continued past the end of its engine.
fn lists(role: Role, letters: &Letters, list: &mut Vec<usize>, left: usize, tally: &mut Tally) {
    let first = replay(role, letters, list);
    for at in 0..letters.len() {
        let mut pair = first.again(list.iter().map(|at| &letters[*at].1));
        tally.events += list.len() as u64;
        let goes_on = last_step(&mut pair, role, letters, list, at, tally) && pair.port.status().phase != 2;
        if goes_on && left > 1 {
            list.push(at);
            lists(role, letters, list, left - 1, tally);
            list.pop();
        }
    }
}

fn all_lists(length: usize, tally: &mut Tally) {
    let letters = alphabet();
    let opened = ["send header", "header", "send Open", "Open"].map(|name| named(&letters, name));
    for role in [Role::Dialler, Role::Listener] {
        lists(role, &letters, &mut Vec::new(), length, tally);
        lists(role, &letters, &mut opened.to_vec(), length, tally);
    }
}

fn random(count: &str, seed: &str, length: &str, tally: &mut Tally) {
    let (count, first): (u64, u64) = (count.parse().expect("a count"), seed.parse().expect("a seed"));
    println!("random lists: seeds {first} to {}, up to {length} events each", first + count - 1);
    for seed in first..first + count {
        random::seed(seed, length.parse().expect("a length"), tally);
    }
}

/// Both limits after an opening: the Rust's own, which is not a running engine's, beside the port's calls.
fn limits(tally: &mut Tally) {
    for role in [Role::Dialler, Role::Listener] {
        for local in [512, 513, 4096, 16384] {
            for remote in [0, 8, 511, 512, 513, 4096, 16383, 16384, 16385, 65536, u32::MAX] {
                let settings = Settings { max_frame_size: local, ..settings() };
                let open = events::open(remote, 1, None);
                let rust = Oracle::opened_limits(role, &settings, &open);
                let mut port = Side::new(role, &settings);
                let header = b"AMQP\x00\x01\x00\x00".to_vec();
                let incoming = Event::Incoming { frame: open, spare: 0, waiting: Vec::new() };
                for event in [Event::SendHeader, Event::ReceiveHeader(header), Event::SendOpen, incoming] {
                    note_written(&port.event(&event).written);
                    tally.events += 1;
                }
                tally.lists += 1;
                let status = port.status();
                let rust_capped = rust.map(|(reading, writing)| (reading, writing.min(16384)));
                if rust != rust_capped {
                    tally.count(&[Rule::LimitCapped]);
                }
                if rust_capped != Some((status.reading_limit, status.writing_limit)) {
                    tally.found(&format!("{role:?}, local {local}, remote {remote}: {rust:?} and {status:?}"));
                }
            }
        }
    }
}

/// The Rust beside itself: this has nothing to do with the port.
fn loops(length: usize, tally: &mut Tally) {
    loops::loops(length, tally);
    loops::all_undelivered(tally);
}

/// How many random lists a check has.
const RANDOM: &str = "4000";

fn check(tally: &mut Tally) {
    let mut alone = Tally::default();
    loops(2, &mut alone);
    println!("the Rust's functions beside its own loop: {}", alone.totals());
    closure(tally);
    all_lists(2, tally);
    limits(tally);
    full::full(tally);
    random(RANDOM, "1", "300", tally);
    for (rule, name, _) in RULES {
        if !tally.rules.contains_key(&rule) {
            tally.found(&format!("a rule that never occurred: {name}"));
        }
    }
    tally.findings += alone.findings;
}

/// Does what the arguments say; whether they say anything.
fn run(arguments: &[&str], tally: &mut Tally) -> bool {
    match arguments {
        ["closure"] => closure(tally),
        ["lists", length] => all_lists(length.parse().expect("a length"), tally),
        ["random", count] => random(count, "1", "300", tally),
        ["random", count, seed] => random(count, seed, "300", tally),
        ["random", count, seed, length] => random(count, seed, length, tally),
        ["limits"] => limits(tally),
        ["full"] => full::full(tally),
        ["loops", length] => loops(length.parse().expect("a length"), tally),
        ["check"] => check(tally),
        _ => return false,
    }
    true
}

/// Writes what the port wrote to a file, a header or frame on each line.
fn write_frames(file: &str) {
    let lines: Vec<String> = kept_written().iter().map(|frame| events::hex(frame) + "\n").collect();
    std::fs::write(file, lines.concat()).expect("a file that can be written");
    println!("{} headers and frames in {file}", lines.len());
}

fn main() {
    // Panics of the Rust are answers here.
    let report = std::panic::take_hook();
    std::panic::set_hook(Box::new(move |info| {
        if info.location().is_some_and(|place| place.file().contains("harness")) {
            report(info);
        }
    }));
    let arguments: Vec<String> = std::env::args().skip(1).collect();
    let mut words: Vec<&str> = arguments.iter().map(String::as_str).collect();
    if words == ["record"] {
        return record::record();
    }
    let frames = match words[..] {
        [.., "--frames", file] => Some(file),
        _ => None,
    };
    if frames.is_some() {
        words.truncate(words.len() - 2);
        keep_written();
    }
    let loops_only = words.first() == Some(&"loops");
    if !loops_only {
        println!("the Rust beside {SIDE}");
    }
    let mut tally = Tally::default();
    if !run(&words, &mut tally) {
        eprintln!(
            "usage: harness check | closure | lists LENGTH | random COUNT [SEED [LENGTH]] | limits | full | loops LENGTH | record [--frames FILE]"
        );
        exit(2);
    }
    tally.report(!loops_only);
    frames.into_iter().for_each(write_frames);
    exit((tally.findings > 0) as i32);
}
