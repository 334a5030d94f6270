//! The refusals that the port adds, by their rules (docs/CALLS.md), on the crate's own words. The crate has no such refusals, so
//! these calls are not made on it; that the port refuses them, and no others, is checked here.

use crate::machine::Machine;
use crate::pending::Pending;
use crate::script::{Action, Call, Port, Settings, State};
use crate::words::Connection;
use core::sync::atomic::Ordering::Relaxed;
use iceoryx2_bb_lock_free::ring::Ring;

/// The number of an added refusal.
pub fn number(answer: &str) -> Option<u32> {
    let number = answer.strip_prefix("refused ")?.split(' ').next()?.parse::<u32>().ok()?;
    matches!(number, 1 | 2 | 6 | 21..=26 | 31 | 33 | 42 | 50 | 51).then_some(number)
}

fn too_large(s: &Settings) -> bool {
    s.buffer_size > 1024 || s.max_borrowed > 1024 || s.samples > 65536 || s.segments > 255 || s.channels > 64
}

fn queue_is_sound(ring: &Ring) -> bool {
    let capacity = ring.capacity() as u64;
    ring.start.load(Relaxed) < capacity && ring.count.load(Relaxed) <= capacity
}

fn channel_is_sound(connection: &Connection, channel: usize) -> bool {
    queue_is_sound(connection.submission(channel)) && queue_is_sound(connection.completion(channel))
}

/// Sound but for the queues. The crate's own fields keep the settings within their limits.
fn is_sound(connection: &Connection) -> bool {
    matches!(connection.port_state().load(Relaxed), 0..=3 | 128)
}

fn is_all_sound(connection: &Connection) -> bool {
    is_sound(connection) && (0..connection.channels()).all(|channel| channel_is_sound(connection, channel))
}

fn creation(machine: &Machine) -> Option<u32> {
    if too_large(machine.settings()) {
        return Some(1);
    }
    match machine.connection() {
        None if machine.is_absent() => (machine.length() < machine.settings().needed()).then_some(2),
        None => None,
        Some(connection) => (!is_all_sound(connection)).then_some(6),
    }
}

/// The three first checks of a call on a channel.
fn checked(machine: &Machine, channel: u64) -> Result<(&Connection, usize), u32> {
    let connection = machine.connection().filter(|connection| is_sound(connection)).ok_or(50u32)?;
    if channel >= connection.channels() as u64 {
        return Err(51);
    }
    let channel = channel as usize;
    if !channel_is_sound(connection, channel) {
        return Err(50);
    }
    Ok((connection, channel))
}

fn sending(machine: &Machine, offset: u64, segment: u8, size: u64, channel: u64) -> Option<u32> {
    let (connection, channel) = match checked(machine, channel) {
        Ok(found) => found,
        Err(number) => return Some(number),
    };
    if !connection.overflows() && connection.submission(channel).is_full() {
        return None;
    }
    let (offset, segment) = (offset % (1 << 56), segment as usize);
    if segment >= connection.segments() {
        return Some(21);
    }
    if size == 0 {
        return Some(22);
    }
    let recorded = connection.size(channel, segment).load(Relaxed) as u64;
    if recorded != 0 && recorded != size {
        return Some(23);
    }
    if offset % size != 0 {
        return Some(24);
    }
    match connection.marks(channel, segment).get((offset / size) as usize) {
        None => Some(25),
        Some(mark) => mark.load(Relaxed).then_some(26),
    }
}

/// What is unsound where a call is refused for that: the first of these.
pub fn unsound(machine: &Machine, call: &Call) -> &'static str {
    let Some(connection) = machine.connection() else { return "condition" };
    if !is_sound(connection) {
        return "port state";
    }
    let asked = match *call {
        Call::Send { channel, .. } | Call::Receive(channel) | Call::Release { channel, .. } => Some(channel as usize),
        Call::Reclaim(channel) | Call::HasData(channel) | Call::BorrowCount(channel) => Some(channel as usize),
        _ => None,
    };
    let channels = (0..connection.channels()).filter(|channel| asked.is_none_or(|asked| asked == *channel));
    for channel in channels {
        for (ring, start, count) in [
            (connection.submission(channel), "submission start", "submission count"),
            (connection.completion(channel), "completion start", "completion count"),
        ] {
            if ring.start.load(Relaxed) >= ring.capacity() as u64 {
                return start;
            }
            if ring.count.load(Relaxed) > ring.capacity() as u64 {
                return count;
            }
        }
    }
    "nothing"
}

/// A step of a pending send. Where it ends by a send, the send's refusals are its own.
fn stepping(machine: &Machine, pending: &Pending) -> Option<u32> {
    let wait = &pending.wait;
    let (connection, channel) = match checked(machine, wait.channel) {
        Ok(found) => found,
        Err(number) => return Some(number),
    };
    let send = || sending(machine, wait.offset, wait.segment, wait.size, wait.channel);
    let full = connection.submission(channel).is_full();
    if pending.steps == 0 && (connection.overflows() || !full) {
        return send();
    }
    if connection.port_state().load(Relaxed) != 3 || connection.channel_state(channel).load(Relaxed) == u64::MAX {
        return None;
    }
    if !full {
        return send();
    }
    let stays = match pending.action() {
        _ if pending.until_delivered => true,
        Action::Follow => wait.strategy == Action::Retry,
        action => action == Action::Retry,
    };
    (stays && wait.budget == 0).then_some(31)
}

/// The added refusal that a call must give, before it is made.
pub fn expected(machine: &Machine, call: &Call) -> Option<u32> {
    let held = match call {
        Call::Close(Port::Sender) | Call::Send { .. } | Call::Reclaim(_) => machine.holds(Port::Sender),
        Call::Close(Port::Receiver) => machine.holds(Port::Receiver),
        Call::Receive(_) | Call::Release { .. } | Call::HasData(_) | Call::BorrowCount(_) => {
            machine.holds(Port::Receiver)
        }
        Call::Acquire(_) | Call::Step(_) => machine.holds(Port::Sender),
        Call::ChannelState(..) | Call::IsChannelClosed(_) => {
            machine.holds(Port::Sender) || machine.holds(Port::Receiver)
        }
        _ => true,
    };
    match *call {
        _ if !held => None,
        Call::Create(_) => creation(machine),
        Call::Close(_) => (!machine.connection().is_some_and(is_sound)).then_some(50),
        Call::Acquire(room) => match machine.connection().filter(|connection| is_sound(connection)) {
            None => Some(50),
            Some(connection) => (connection.used() as u64 > room).then_some(33),
        },
        Call::Step(id) => stepping(machine, machine.waiting(id)?),
        Call::Remove(_) => machine.connection().is_some_and(|connection| !is_all_sound(connection)).then_some(50),
        Call::ChannelState(_, _, State::Number(number)) if number > 1 << 62 => None,
        Call::ChannelState(_, channel, _) | Call::IsChannelClosed(channel) => checked(machine, channel).err(),
        Call::Send { offset, segment, size, channel } => sending(machine, offset, segment, size, channel),
        Call::Receive(channel) | Call::Reclaim(channel) | Call::HasData(channel) | Call::BorrowCount(channel) => {
            checked(machine, channel).err()
        }
        Call::Release { channel, .. } => match checked(machine, channel) {
            Err(number) => Some(number),
            Ok((connection, channel)) => {
                let full = connection.completion(channel).is_full();
                (!full && machine.borrowed(channel) == 0).then_some(42)
            }
        },
        _ => None,
    }
}
