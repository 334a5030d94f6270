//! Both sides run on the same lists.

use crate::differences::{self, UNREGISTERED};
use crate::draw::{Kinds, draw};
use crate::machine::{Machine, listed};
use crate::plants::Fault;
use crate::rules;
use crate::script::{Call, Port, Script};
use std::collections::BTreeMap;
use std::fs::{self, File};
use std::path::{Path, PathBuf};
use std::process::{Command, Stdio};
use std::sync::Mutex;
use std::sync::atomic::{AtomicU64, Ordering::Relaxed};

/// The program of the port, and two files to hand it scripts and to take answers from it.
pub struct Replay {
    program: PathBuf,
    script: PathBuf,
    answers: PathBuf,
}

impl Replay {
    pub fn new(program: &Path, name: &str) -> Replay {
        let shared = Path::new("/dev/shm");
        let folder = if shared.is_dir() { shared.to_path_buf() } else { std::env::temp_dir() };
        let file = |kind| folder.join(format!("oracle-{}-{name}-{kind}", std::process::id()));
        Replay { program: program.to_path_buf(), script: file("script"), answers: file("answers") }
    }

    /// What the port prints.
    pub fn run(&self, script: &Script) -> std::io::Result<String> {
        fs::write(&self.script, script.to_string())?;
        let status = Command::new(&self.program)
            .stdin(Stdio::from(File::open(&self.script)?))
            .stdout(Stdio::from(File::create(&self.answers)?))
            .stderr(Stdio::null())
            .status()?;
        match status.success() {
            true => fs::read_to_string(&self.answers),
            false => Err(std::io::Error::other(format!("the port ended with {status}"))),
        }
    }

    /// A script with a line that is not understood ends with another status.
    fn understands(&self, call: Call) -> bool {
        let script = Script { storage: "storage words 100".to_string(), calls: vec![call] };
        self.run(&script).is_ok()
    }

    /// The kinds of calls that the port understands.
    pub fn kinds(&self) -> Kinds {
        Kinds {
            waits: self.understands(Call::Step(0)),
            states: self.understands(Call::IsChannelClosed(0)),
            acquiring: self.understands(Call::Acquire(0)),
            removal: self.understands(Call::Remove(Port::Sender)),
        }
    }
}

impl Drop for Replay {
    fn drop(&mut self) {
        let _ = fs::remove_file(&self.script);
        let _ = fs::remove_file(&self.answers);
    }
}

/// What was compared.
#[derive(Default)]
pub struct Counts {
    pub lists: u64,
    /// Calls that change something or ask for something, so all but `words` and `counters`.
    pub calls: u64,
    pub answers: u64,
    pub passed_over: u64,
    pub words: u64,
    pub counters: u64,
    /// Lists that end early at a word or a condition that the crate cannot have.
    pub cut: u64,
    pub named: BTreeMap<String, u64>,
    pub tally: BTreeMap<String, u64>,
    /// The answers of the last list: the crate's, and the port's own refusals.
    pub last: Vec<String>,
}

impl Counts {
    fn add(&mut self, other: Counts) {
        self.lists += other.lists;
        self.calls += other.calls;
        self.answers += other.answers;
        self.passed_over += other.passed_over;
        self.words += other.words;
        self.counters += other.counters;
        self.cut += other.cut;
        for (name, count) in other.named {
            *self.named.entry(name).or_default() += count;
        }
        for (name, count) in other.tally {
            *self.tally.entry(name).or_default() += count;
        }
    }

    fn note(&mut self, call: &Call, port: &str) {
        match call {
            Call::Words => self.words += port.split(' ').count() as u64 - 1,
            Call::Counters => self.counters += port.split(' ').count() as u64 - 1,
            _ => {
                self.calls += 1;
                *self.tally.entry(kind(call, port)).or_default() += 1;
            }
        }
    }
}

/// A call by its keyword and its answer, without values.
pub fn kind(call: &Call, answer: &str) -> String {
    let numbered = answer.starts_with("refused") || answer.starts_with("state");
    let kind: Vec<&str> = answer.split(' ').take(if numbered { 2 } else { 1 }).collect();
    format!("{} {}", call.name(), kind.join(" "))
}

/// Where the two sides differ.
pub struct Difference {
    pub at: usize,
    pub port: String,
    pub rust: String,
}

/// Makes the calls on the crate and compares each answer with the port's. The list ends at a difference that has a name.
pub fn sides(
    script: &Script,
    printed: &str,
    worker: &str,
    plant: Option<&'static str>,
    counts: &mut Counts,
) -> Option<Difference> {
    let port: Vec<&str> = printed.lines().collect();
    let mut machine = Machine::new(worker, script.length().expect("a storage with words"));
    let mut fault = plant.map(Fault::new);
    counts.lists += 1;
    counts.last.clear();
    for (at, call) in script.calls.iter().enumerate() {
        let printed = *port.get(at).unwrap_or(&"");
        let shown = fault.as_ref().map_or(printed.into(), |fault| fault.port(&machine, call, printed));
        let answer = &*shown;
        counts.note(call, answer);
        let unheld = matches!(*call, Call::Write(place, word) if !machine.can_hold(place, word));
        if unheld || !machine.can_take(call) {
            counts.cut += 1;
            return None;
        }
        let mut refusal = rules::expected(&machine, call);
        if let Some(fault) = &fault {
            refusal = fault.refusal(call, &machine, refusal);
        }
        if rules::number(answer) != refusal {
            let rule = refusal
                .map_or("no refusal of the port's own".to_string(), |number| format!("refused {number} by its rule"));
            return Some(Difference { at, port: answer.to_string(), rust: rule });
        }
        if let Some(number) = refusal {
            if matches!(number, 6 | 50) {
                let part = format!("{}: {}", kind(call, answer), rules::unsound(&machine, call));
                *counts.tally.entry(part).or_default() += 1;
            }
            machine.pass_over(call);
            counts.passed_over += 1;
            counts.last.push(answer.to_string());
            continue;
        }
        let judged = differences::judged(&machine, call);
        let follows = differences::follows_to_fail(&machine, call);
        let before = match (&fault, call) {
            (None, Call::Create(_)) | (Some(_), _) => machine.words().to_vec(),
            _ => Vec::new(),
        };
        if let Some(fault) = &fault {
            fault.before(&machine, call);
        }
        let mut rust = machine.perform(call);
        if let (Some(fault), Ok(answer)) = (&mut fault, &mut rust) {
            fault.after(&mut machine, call, answer, &before);
        }
        if rust.as_deref() != Ok(answer) {
            if let Some((name, alike)) = differences::name(&machine, call, judged, follows, answer, &rust) {
                *counts.named.entry(name).or_default() += 1;
                if alike {
                    continue;
                }
                return None;
            }
            let rust = rust.unwrap_or_else(|panic| panic);
            return Some(Difference { at, port: answer.to_string(), rust });
        }
        counts.answers += 1;
        counts.last.extend(rust.ok());
        match machine.parted {
            Some(UNREGISTERED) => return unregistered(script, &port, at, &before, counts),
            Some(name) => {
                *counts.named.entry(name.to_string()).or_default() += 1;
                return None;
            }
            None => (),
        }
    }
    let extra = port.get(script.calls.len())?;
    Some(Difference { at: script.calls.len() - 1, port: extra.to_string(), rust: String::new() })
}

/// The crate has removed the connection. The port left everything as it was.
fn unregistered(script: &Script, port: &[&str], at: usize, before: &[u64], counts: &mut Counts) -> Option<Difference> {
    let shown = (at + 1..script.calls.len()).take(2).find(|at| script.calls[*at] == Call::Words);
    match shown {
        Some(shown) if port[shown] != listed(before) => {
            Some(Difference { at: shown, port: port[shown].to_string(), rust: listed(before) })
        }
        _ => {
            *counts.named.entry(UNREGISTERED.to_string()).or_default() += 1;
            None
        }
    }
}

/// Runs both sides on a script.
pub fn both(
    replay: &Replay,
    script: &Script,
    worker: &str,
    plant: Option<&'static str>,
    counts: &mut Counts,
) -> Option<Difference> {
    match replay.run(script) {
        Ok(printed) => sides(script, &printed, worker, plant, counts),
        Err(error) => {
            let at = script.calls.len().saturating_sub(1);
            Some(Difference { at, port: error.to_string(), rust: String::new() })
        }
    }
}

/// Drops calls while a difference stays.
pub fn minimised(replay: &Replay, script: Script, worker: &str, plant: Option<&'static str>) -> (Script, Difference) {
    let differs = |calls: &[Call]| {
        let shorter = Script { storage: script.storage.clone(), calls: calls.to_vec() };
        both(replay, &shorter, worker, plant, &mut Counts::default())
    };
    let mut calls = script.calls.clone();
    let mut found = differs(&calls).expect("a difference");
    calls.truncate(found.at + 1);
    let mut width = calls.len() / 2;
    while width > 0 {
        let mut at = 0;
        let mut shrank = false;
        while at + width <= calls.len() {
            let mut fewer = calls.clone();
            fewer.drain(at..at + width);
            match differs(&fewer) {
                Some(difference) => {
                    fewer.truncate(difference.at + 1);
                    (calls, found, shrank) = (fewer, difference, true);
                }
                None => at += width,
            }
        }
        if !shrank || width > 1 {
            width /= 2;
        }
    }
    (Script { storage: script.storage, calls }, found)
}

pub struct Plan {
    pub program: PathBuf,
    pub lists: u64,
    pub calls: usize,
    pub seed: u64,
    pub threads: usize,
    pub kinds: Kinds,
    pub plant: Option<&'static str>,
}

/// Runs both sides on all lists of a plan. The first list that shows a difference without a name is answered by its number.
pub fn all(plan: &Plan) -> (Counts, Option<u64>) {
    let next = AtomicU64::new(0);
    let end = AtomicU64::new(plan.lists);
    let total = Mutex::new(Counts::default());
    std::thread::scope(|scope| {
        for thread in 0..plan.threads {
            let (next, end, total) = (&next, &end, &total);
            scope.spawn(move || {
                let worker = format!("list{thread}");
                let replay = Replay::new(&plan.program, &worker);
                let mut counts = Counts::default();
                loop {
                    let list = next.fetch_add(1, Relaxed);
                    if list >= end.load(Relaxed) {
                        break;
                    }
                    let script = draw(plan.seed, list, plan.calls, plan.kinds);
                    if both(&replay, &script, &worker, plan.plant, &mut counts).is_some() {
                        end.fetch_min(list, Relaxed);
                    }
                }
                total.lock().unwrap().add(counts);
            });
        }
    });
    let first = end.load(Relaxed);
    (total.into_inner().unwrap(), (first < plan.lists).then_some(first))
}
