//! Scripts as docs/SCRIPT.md has them: a storage and calls, one a line.

use std::fmt;

#[derive(Clone, Copy, PartialEq, Eq, Debug)]
pub enum Port {
    Sender,
    Receiver,
}

/// A condition that a script can ask for.
#[derive(Clone, Copy, PartialEq, Eq, Debug)]
pub enum Stage {
    Absent,
    Forming,
    Ready,
}

/// The state of a channel as a script writes it.
#[derive(Clone, Copy, PartialEq, Eq, Debug)]
pub enum State {
    Number(u64),
    Closed,
}

/// What a policy answers, and what a strategy is.
#[derive(Clone, Copy, PartialEq, Eq, Debug)]
pub enum Action {
    Follow,
    Retry,
    Discard,
    Fail,
}

#[derive(Clone, Copy, PartialEq, Eq, Debug)]
pub enum Policy {
    Fixed(Action),
    Retries(u64),
    Table([Action; 4]),
}

/// A pending send.
#[derive(Clone, Copy, PartialEq, Eq, Debug)]
pub struct Wait {
    pub id: u64,
    pub offset: u64,
    pub segment: u8,
    pub size: u64,
    pub channel: u64,
    pub strategy: Action,
    pub policy: Policy,
    pub budget: u64,
}

/// A function of `ZeroCopyPortDetails` on the state of a channel.
#[derive(Clone, Copy, PartialEq, Eq, Debug)]
pub enum StateCall {
    Set,
    SetHint,
    HasHint,
    Has,
    Close,
}

#[derive(Clone, Copy, PartialEq, Eq, Debug)]
pub struct Settings {
    pub buffer_size: u64,
    pub max_borrowed: u64,
    pub samples: u64,
    pub segments: u64,
    pub channels: u64,
    pub overflow: bool,
    pub state: State,
}

#[derive(Clone, Copy, PartialEq, Eq, Debug)]
pub enum Call {
    Condition,
    Length,
    Words,
    Counters,
    Read(u64),
    Write(u64, u64),
    SetCondition(Stage),
    Code(u64),
    Settings(Settings),
    Create(Port),
    Close(Port),
    Send { offset: u64, segment: u8, size: u64, channel: u64 },
    Receive(u64),
    Release { offset: u64, segment: u8, channel: u64 },
    Reclaim(u64),
    HasData(u64),
    BorrowCount(u64),
    Wait(Wait),
    Step(u64),
    Acquire(u64),
    ChannelState(StateCall, u64, State),
    IsChannelClosed(u64),
    Remove(Port),
    Value(u64, u8),
    Offset(u64),
}

pub struct Script {
    pub storage: String,
    pub calls: Vec<Call>,
}

const ACTIONS: [(Action, &str, char); 4] = [
    (Action::Follow, "follow", 'o'),
    (Action::Retry, "retry", 'r'),
    (Action::Discard, "discard", 'd'),
    (Action::Fail, "fail", 'f'),
];

const STATE_CALLS: [(StateCall, &str); 5] = [
    (StateCall::Set, "set_channel_state"),
    (StateCall::SetHint, "set_disconnect_hint"),
    (StateCall::HasHint, "has_disconnect_hint"),
    (StateCall::Has, "has_channel_state"),
    (StateCall::Close, "close_channel"),
];

impl Policy {
    /// The action for a number of retries and of steps before.
    pub fn action(&self, retries: u64, elapsed: u64) -> Action {
        match *self {
            Policy::Fixed(action) => action,
            Policy::Retries(limit) if retries < limit => Action::Retry,
            Policy::Retries(_) => Action::Fail,
            Policy::Table(actions) => actions[((retries + 2 * elapsed) % 4) as usize],
        }
    }
}

impl Settings {
    /// Those of the crate's builder.
    pub fn first() -> Settings {
        Settings {
            buffer_size: 4,
            max_borrowed: 4,
            samples: 8,
            segments: 1,
            channels: 1,
            overflow: false,
            state: State::Number(0),
        }
    }

    pub fn raised(&self) -> Settings {
        Settings {
            buffer_size: self.buffer_size.max(1),
            max_borrowed: self.max_borrowed.max(1),
            samples: self.samples.max(1),
            segments: self.segments.max(1),
            channels: self.channels.max(1),
            ..*self
        }
    }

    /// How many words a connection needs.
    pub fn needed(&self) -> u64 {
        let s = self.raised();
        let channel = s.buffer_size.saturating_mul(2).saturating_add(s.max_borrowed).saturating_add(6);
        let details = s.segments.saturating_mul(s.samples.saturating_add(1));
        s.channels.saturating_mul(channel.saturating_add(details)).saturating_add(8)
    }
}

impl fmt::Display for Port {
    fn fmt(&self, f: &mut fmt::Formatter<'_>) -> fmt::Result {
        f.write_str(if *self == Port::Sender { "sender" } else { "receiver" })
    }
}

impl fmt::Display for Stage {
    fn fmt(&self, f: &mut fmt::Formatter<'_>) -> fmt::Result {
        f.write_str(match self {
            Stage::Absent => "absent",
            Stage::Forming => "forming",
            Stage::Ready => "ready",
        })
    }
}

impl fmt::Display for State {
    fn fmt(&self, f: &mut fmt::Formatter<'_>) -> fmt::Result {
        match self {
            State::Number(value) => write!(f, "{value}"),
            State::Closed => f.write_str("closed"),
        }
    }
}

impl fmt::Display for Action {
    fn fmt(&self, f: &mut fmt::Formatter<'_>) -> fmt::Result {
        f.write_str(ACTIONS.iter().find(|known| known.0 == *self).map_or("", |known| known.1))
    }
}

impl fmt::Display for Policy {
    fn fmt(&self, f: &mut fmt::Formatter<'_>) -> fmt::Result {
        let letter = |action: &Action| ACTIONS.iter().find(|known| known.0 == *action).map_or(' ', |known| known.2);
        match self {
            Policy::Fixed(action) => write!(f, "fixed {action}"),
            Policy::Retries(limit) => write!(f, "retries {limit}"),
            Policy::Table(actions) => write!(f, "table {}", actions.iter().map(letter).collect::<String>()),
        }
    }
}

impl fmt::Display for StateCall {
    fn fmt(&self, f: &mut fmt::Formatter<'_>) -> fmt::Result {
        f.write_str(STATE_CALLS.iter().find(|known| known.0 == *self).map_or("", |known| known.1))
    }
}

impl fmt::Display for Call {
    fn fmt(&self, f: &mut fmt::Formatter<'_>) -> fmt::Result {
        match *self {
            Call::Condition => f.write_str("condition"),
            Call::Length => f.write_str("length"),
            Call::Words => f.write_str("words"),
            Call::Counters => f.write_str("counters"),
            Call::Read(place) => write!(f, "read {place}"),
            Call::Write(place, word) => write!(f, "write {place} {word}"),
            Call::SetCondition(stage) => write!(f, "set_condition {stage}"),
            Call::Code(code) => write!(f, "code {code}"),
            Call::Settings(s) => write!(
                f,
                "settings {} {} {} {} {} {} {}",
                s.buffer_size, s.max_borrowed, s.samples, s.segments, s.channels, s.overflow as u8, s.state
            ),
            Call::Create(port) => write!(f, "create {port}"),
            Call::Close(port) => write!(f, "close {port}"),
            Call::Send { offset, segment, size, channel } => write!(f, "send {offset} {segment} {size} {channel}"),
            Call::Receive(channel) => write!(f, "receive {channel}"),
            Call::Release { offset, segment, channel } => write!(f, "release {offset} {segment} {channel}"),
            Call::Reclaim(channel) => write!(f, "reclaim {channel}"),
            Call::HasData(channel) => write!(f, "has_data {channel}"),
            Call::BorrowCount(channel) => write!(f, "borrow_count {channel}"),
            Call::Wait(w) => write!(
                f,
                "wait {} {} {} {} {} {} {} {}",
                w.id, w.offset, w.segment, w.size, w.channel, w.strategy, w.policy, w.budget
            ),
            Call::Step(id) => write!(f, "step {id}"),
            Call::Acquire(room) => write!(f, "acquire {room}"),
            Call::ChannelState(call, channel, state) => write!(f, "{call} {channel} {state}"),
            Call::IsChannelClosed(channel) => write!(f, "is_channel_closed {channel}"),
            Call::Remove(port) => write!(f, "remove {port}"),
            Call::Value(offset, segment) => write!(f, "value {offset} {segment}"),
            Call::Offset(value) => write!(f, "offset {value}"),
        }
    }
}

impl fmt::Display for Script {
    fn fmt(&self, f: &mut fmt::Formatter<'_>) -> fmt::Result {
        writeln!(f, "{}", self.storage)?;
        self.calls.iter().try_for_each(|call| writeln!(f, "{call}"))
    }
}

fn port(word: &str) -> Option<Port> {
    match word {
        "sender" => Some(Port::Sender),
        "receiver" => Some(Port::Receiver),
        _ => None,
    }
}

fn stage(word: &str) -> Option<Stage> {
    match word {
        "absent" => Some(Stage::Absent),
        "forming" => Some(Stage::Forming),
        "ready" => Some(Stage::Ready),
        _ => None,
    }
}

fn state(word: &str) -> Option<State> {
    match word {
        "closed" => Some(State::Closed),
        _ => word.parse().ok().map(State::Number),
    }
}

fn action(word: &str) -> Option<Action> {
    ACTIONS.iter().find(|known| known.1 == word).map(|known| known.0)
}

fn policy(kind: &str, word: &str) -> Option<Policy> {
    let letter = |letter: char| ACTIONS.iter().find(|known| known.2 == letter).map(|known| known.0);
    match kind {
        "fixed" => action(word).map(Policy::Fixed),
        "retries" => word.parse().ok().map(Policy::Retries),
        "table" => word.chars().map(letter).collect::<Option<Vec<_>>>()?.try_into().ok().map(Policy::Table),
        _ => None,
    }
}

fn wait(words: &[&str]) -> Option<Wait> {
    let &[id, offset, segment, size, channel, strategy, kind, word, budget] = words else { return None };
    Some(Wait {
        id: id.parse().ok()?,
        offset: offset.parse().ok()?,
        segment: segment.parse().ok()?,
        size: size.parse().ok()?,
        channel: channel.parse().ok()?,
        strategy: action(strategy)?,
        policy: policy(kind, word)?,
        budget: budget.parse().ok()?,
    })
}

fn settings(words: &[&str]) -> Option<Settings> {
    let [numbers @ .., last] = words else { return None };
    let numbers: Vec<u64> = numbers.iter().map(|word| word.parse().ok()).collect::<Option<_>>()?;
    let [buffer_size, max_borrowed, samples, segments, channels, overflow @ (0 | 1)] = numbers[..] else {
        return None;
    };
    let overflow = overflow == 1;
    let state = state(last)?;
    Some(Settings { buffer_size, max_borrowed, samples, segments, channels, overflow, state })
}

impl Call {
    fn parse(words: &[&str]) -> Option<Call> {
        let (name, rest) = words.split_first()?;
        match (*name, rest) {
            ("settings", rest) => return settings(rest).map(Call::Settings),
            ("set_condition", [word]) => return stage(word).map(Call::SetCondition),
            ("wait", rest) => return wait(rest).map(Call::Wait),
            ("remove", [word]) => return port(word).map(Call::Remove),
            (name, [channel, word]) if STATE_CALLS.iter().any(|known| known.1 == name) => {
                let call = STATE_CALLS.iter().find(|known| known.1 == name)?.0;
                return Some(Call::ChannelState(call, channel.parse().ok()?, state(word)?));
            }
            ("create", [word]) => return port(word).map(Call::Create),
            ("close", [word]) => return port(word).map(Call::Close),
            _ => (),
        }
        let numbers: Vec<u64> = rest.iter().map(|word| word.parse().ok()).collect::<Option<_>>()?;
        let byte = |number: u64| u8::try_from(number).ok();
        Some(match (*name, &numbers[..]) {
            ("condition", []) => Call::Condition,
            ("length", []) => Call::Length,
            ("words", []) => Call::Words,
            ("counters", []) => Call::Counters,
            ("read", &[place]) => Call::Read(place),
            ("code", &[code]) => Call::Code(code),
            ("write", &[place, word]) => Call::Write(place, word),
            ("send", &[offset, segment, size, channel]) => {
                Call::Send { offset, segment: byte(segment)?, size, channel }
            }
            ("receive", &[channel]) => Call::Receive(channel),
            ("release", &[offset, segment, channel]) => Call::Release { offset, segment: byte(segment)?, channel },
            ("reclaim", &[channel]) => Call::Reclaim(channel),
            ("has_data", &[channel]) => Call::HasData(channel),
            ("borrow_count", &[channel]) => Call::BorrowCount(channel),
            ("step", &[id]) => Call::Step(id),
            ("acquire", &[room]) => Call::Acquire(room),
            ("is_channel_closed", &[channel]) => Call::IsChannelClosed(channel),
            ("value", &[offset, segment]) => Call::Value(offset, byte(segment)?),
            ("offset", &[value]) => Call::Offset(value),
            _ => return None,
        })
    }

    /// The keyword.
    pub fn name(&self) -> String {
        self.to_string().split(' ').next().unwrap_or_default().to_string()
    }
}

impl Script {
    pub fn parse(text: &str) -> Result<Script, String> {
        let mut script = Script { storage: "storage words 4097".to_string(), calls: Vec::new() };
        for (number, line) in text.lines().enumerate() {
            let line = line.split('#').next().unwrap_or_default();
            let words: Vec<&str> = line.split_whitespace().collect();
            match words.first() {
                None => (),
                Some(&"storage") if script.calls.is_empty() => script.storage = words.join(" "),
                Some(_) => match Call::parse(&words) {
                    Some(call) => script.calls.push(call),
                    None => return Err(format!("line {}: not understood here: {line}", number + 1)),
                },
            }
        }
        Ok(script)
    }

    /// How many words the storage has, the code not counted. It must have a code.
    pub fn length(&self) -> Option<u64> {
        let words: Vec<&str> = self.storage.split_whitespace().skip(1).collect();
        let number = |at: usize| words.get(at)?.parse::<u64>().ok();
        let (mut length, mut at) = match *words.first()? {
            "words" => (number(1)?.checked_sub(1)?, 2),
            "bytes" => ((number(1)? / 8).checked_sub(1)?, 2),
            "inner" => (512, 1),
            _ => return None,
        };
        while let Some(layer) = words.get(at) {
            match *layer {
                "window" => {
                    length = length.checked_sub(number(at + 1)?)?.checked_sub(1)?.min(number(at + 2)?);
                    at += 3;
                }
                "swapped" => at += 1,
                _ => return None,
            }
        }
        Some(length)
    }
}
