//! `oracle run`: a script on standard input, run on the crate. `oracle compare`: lists drawn at random, run on both sides. `oracle
//! sample`: some of them recorded.

#[cfg(test)]
mod alone;
mod compare;
mod differences;
mod draw;
mod machine;
mod panics;
mod pending;
mod plants;
mod random;
mod rules;
mod sample;
mod script;
mod told;
mod words;

use compare::{Counts, Plan, Replay};
use machine::Machine;
use script::{Call, Port, Script, Settings};
use std::io::Read;
use std::path::PathBuf;
use std::process::ExitCode;

fn run() -> Result<(), String> {
    let mut text = String::new();
    std::io::stdin().read_to_string(&mut text).map_err(|error| error.to_string())?;
    let script = Script::parse(&text)?;
    let length = script.length().ok_or("a storage without words")?;
    let mut machine = Machine::new("script", length);
    for call in &script.calls {
        match machine.perform(call) {
            Ok(answer) => println!("{answer}"),
            Err(panic) => {
                println!("{panic}");
                break;
            }
        }
    }
    Ok(())
}

/// The words are read through structs of the same shape as the crate's: whether that is so.
fn check_reading() -> Result<(), String> {
    let mut machine = Machine::new("reading", 500);
    let settings = Settings {
        buffer_size: 2,
        max_borrowed: 3,
        samples: 5,
        segments: 2,
        channels: 3,
        overflow: true,
        ..Settings::first()
    };
    let send = |segment, size, channel| Call::Send { offset: 2 * size, segment, size, channel };
    let create = [Call::Settings(settings), Call::Create(Port::Sender), Call::Create(Port::Receiver)];
    for call in create.into_iter().chain([send(0, 77, 0), send(1, 13, 1), send(1, 99, 2)]) {
        if machine.perform(&call).as_deref() != Ok("ok") {
            return Err(format!("{call} fails on the crate"));
        }
    }
    match machine.reads_rightly() {
        true => Ok(()),
        false => Err("the crate's words are not where they are looked for".to_string()),
    }
}

struct Options {
    program: PathBuf,
    lists: u64,
    calls: usize,
    seed: u64,
    threads: usize,
    tally: bool,
    plant: Option<&'static str>,
    plants: bool,
}

fn options(mut words: impl Iterator<Item = String>) -> Result<Options, String> {
    let threads = std::thread::available_parallelism().map_or(1, |count| count.get());
    let mut options = Options {
        program: PathBuf::new(),
        lists: 500,
        calls: 200,
        seed: 1,
        threads,
        tally: false,
        plant: None,
        plants: false,
    };
    while let Some(word) = words.next() {
        let mut next = || words.next().ok_or(format!("{word} wants a value"));
        let number = |text: String| text.parse::<u64>().map_err(|_| format!("{text} is no number"));
        match word.as_str() {
            "--replay" => options.program = next()?.into(),
            "--lists" => options.lists = number(next()?)?,
            "--calls" => options.calls = number(next()?)? as usize,
            "--seed" => options.seed = number(next()?)?,
            "--threads" => options.threads = number(next()?)?.max(1) as usize,
            "--tally" => options.tally = true,
            "--plant" => {
                let name = next()?;
                let known = plants::PLANTS.iter().find(|plant| plant.0 == name);
                options.plant = Some(known.ok_or(format!("no plant {name}"))?.0);
            }
            "--plants" => options.plants = true,
            _ => return Err(format!("{word} is not understood")),
        }
    }
    Ok(options)
}

fn report(counts: &Counts, tally: bool) {
    println!("{} lists, {} calls", counts.lists, counts.calls);
    println!("{} answers compared, {} passed over (refusals of the port's own)", counts.answers, counts.passed_over);
    println!("{} words and {} counters compared", counts.words, counts.counters);
    println!("{} lists cut short at a word or a condition that the crate cannot have", counts.cut);
    for (name, count) in &counts.named {
        println!("named difference, {count} times: {name}");
    }
    if tally {
        for (name, count) in &counts.tally {
            println!("{count:>10} {name}");
        }
    }
}

/// Whether both sides agree but for named differences.
fn compare(options: Options) -> Result<bool, String> {
    check_reading()?;
    let Options { program, lists, calls, seed, threads, tally, plant, plants } = options;
    let kinds = Replay::new(&program, "kinds").kinds();
    let mut plan = Plan { program, lists, calls, seed, threads, kinds, plant };
    if plants {
        return Ok(all_plants(&mut plan));
    }
    let (counts, first) = compare::all(&plan);
    report(&counts, tally);
    let Some(list) = first else {
        println!("no other difference");
        return Ok(true);
    };
    let replay = Replay::new(&plan.program, "minimised");
    let script = draw::draw(seed, list, calls, kinds);
    let (script, difference) = compare::minimised(&replay, script, "minimised", plant);
    println!("list {list} of seed {seed} differs; a shorter script that does:\n{script}");
    println!("port: {}\nRust: {}", difference.port, difference.rust);
    Ok(false)
}

/// Whether every planted fault is found.
fn all_plants(plan: &mut Plan) -> bool {
    let mut all = true;
    for (name, what) in plants::PLANTS {
        plan.plant = Some(name);
        match compare::all(plan).1 {
            Some(list) => println!("| {name} | {what} | list {list} |"),
            None => {
                println!("| {name} | {what} | not found |");
                all = false;
            }
        }
    }
    all
}

fn main() -> ExitCode {
    panics::keep_silent();
    let mut words = std::env::args().skip(1);
    let done = match words.next().as_deref() {
        Some("run") => run().map(|()| true),
        Some("compare") => options(words).and_then(compare),
        Some("sample") => sample::write(words.map(PathBuf::from).collect()).map(|()| true),
        _ => Err("run, compare or sample".to_string()),
    };
    match done {
        Ok(true) => ExitCode::SUCCESS,
        Ok(false) => ExitCode::FAILURE,
        Err(error) => {
            eprintln!("oracle: {error}");
            ExitCode::from(2)
        }
    }
}
