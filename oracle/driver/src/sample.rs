//! A recorded sample: many short lists in one script over one storage, with the crate's answers, for a test without the crate.

use crate::compare::{Counts, Replay, both, kind};
use crate::draw::draw_short;
use crate::script::{Call, Script};
use std::collections::BTreeMap;
use std::fs;
use std::path::PathBuf;

const SEED: u64 = 93;
const LENGTH: u64 = 80;
const CALLS: usize = 24;
/// Lists that are taken as they come, and how many more are looked through for answers that are still rare.
const TAKEN: usize = 240;
const LOOKED_THROUGH: u64 = 40_000;
/// How often each answer of each call is wanted.
const WANTED: u64 = 3;

const HEADER: &str = "\
# A recorded sample of the comparison with the Rust (docs/COMPARISON.md), made by oracle/sample: lists drawn at random, one after
# the other over one storage. The answers are the Rust's, but for the refusals that the port adds: 1, 2, 6, 21 to 26, 42, 50 and
# 51 are the port's answers, and those calls were not made on the Rust. Words behind those of a connection were kept by the driver.
";

/// A list that comes first: a pending send that loses its receiver, which short lists drawn at random hardly have.
const FIRST: &str = "\
storage words 81
settings 1 1 8 1 1 0 0
create sender
create receiver
send 0 0 64 0
wait 0 64 0 64 0 retry fixed follow 3
wait 1 128 0 64 0 follow fixed retry 3
wait 2 192 0 64 0 follow retries 3 3
step 0
step 1
close receiver
step 0
step 1
step 2
words
close sender
code 0
";

fn storage() -> String {
    format!("storage words {}", LENGTH + 1)
}

/// The lists of the sample: the first ones, and later ones with answers that the earlier ones have too seldom.
fn choose(replay: &Replay) -> Vec<Vec<Call>> {
    let kinds = replay.kinds();
    let mut chosen = vec![Script::parse(FIRST).expect("a script").calls];
    let mut seen: BTreeMap<String, u64> = BTreeMap::new();
    for list in 0..LOOKED_THROUGH {
        let script = Script { storage: storage(), calls: draw_short(SEED, list, LENGTH, CALLS, kinds) };
        let mut counts = Counts::default();
        let differs = both(replay, &script, "sample", None, &mut counts).is_some();
        let whole = !differs && counts.named.is_empty() && counts.cut == 0;
        let rare = |name: &String| seen.get(name).is_none_or(|times| *times < WANTED);
        if whole && (chosen.len() < TAKEN || counts.tally.keys().any(rare)) {
            counts.tally.into_iter().for_each(|(name, times)| *seen.entry(name).or_default() += times);
            chosen.push(script.calls);
        }
    }
    chosen
}

/// Writes `stdin` and `stdout` to a folder. The arguments are the port's program and the folder.
pub fn write(arguments: Vec<PathBuf>) -> Result<(), String> {
    let [program, folder] = &arguments[..] else {
        return Err("sample wants the port's program and a folder".to_string());
    };
    let replay = Replay::new(program, "sample");
    let calls: Vec<Call> = choose(&replay).into_iter().flatten().collect();
    let script = Script { storage: storage(), calls };
    let mut counts = Counts::default();
    if let Some(difference) = both(&replay, &script, "sample", None, &mut counts) {
        return Err(format!("call {}: port {}, Rust {}", difference.at, difference.port, difference.rust));
    }
    if counts.last.len() != script.calls.len() {
        return Err("the sample ends early".to_string());
    }
    let answers: String = counts.last.iter().map(|answer| format!("{answer}\n")).collect();
    fs::write(folder.join("stdin"), format!("{HEADER}{script}")).map_err(|error| error.to_string())?;
    fs::write(folder.join("stdout"), answers).map_err(|error| error.to_string())?;
    println!("{} calls", script.calls.len());
    let mut tally: BTreeMap<String, u64> = BTreeMap::new();
    for (call, answer) in script.calls.iter().zip(&counts.last) {
        *tally.entry(kind(call, answer)).or_default() += 1;
    }
    tally.iter().for_each(|(name, count)| println!("{count:>10} {name}"));
    Ok(())
}
