//! Faults planted on the crate's side, one at a time, to see that the comparison finds them.

use crate::differences::judged;
use crate::machine::{Machine, listed};
use crate::script::{Call, Port};
use crate::words::Connection;
use core::sync::atomic::Ordering::Relaxed;
use iceoryx2_bb_lock_free::ring::Ring;
use std::borrow::Cow;

/// Every fault, with what goes wrong.
pub const PLANTS: [(&str, &str); 23] = [
    ("evicted-stays-marked", "the mark of an evicted chunk is not cleared"),
    ("evicted-not-answered", "a send does not answer the value it evicted"),
    ("ring-without-mod", "a push behind the last slot of a queue does not go on at the first"),
    ("size-not-recorded", "the first send of a segment does not record its size"),
    ("corrupted-send-undone", "a send that answers 27 is undone"),
    ("full-release-counts", "a release that answers 41 lowers the counter"),
    ("completion-shorter", "one value less can wait to be reclaimed"),
    ("receive-not-counted", "a receive does not raise the counter"),
    ("receive-counts-elsewhere", "a receive raises the counter of the next channel"),
    ("none-at-the-limit", "a receive at the limit answers none where nothing waits"),
    ("pop-clears-slot", "a receive clears the slot that it leaves"),
    ("reclaim-takes-newest", "a reclaim takes the newest value"),
    ("reclaim-keeps-mark", "a reclaim leaves the mark"),
    ("neighbour-mark-cleared", "a reclaim clears the mark of the next chunk too"),
    ("segment-times-channels", "the port's reclaim tests the segment against segments x channels"),
    ("has-data-at-two", "has_data wants two values"),
    ("close-leaves-bit", "a close leaves the port registered"),
    ("mismatch-keeps-bit", "a creation with other settings leaves the port registered"),
    ("mismatches-swapped", "other overflow is told before another number borrowed"),
    ("old-marks-stay", "a new connection has the marks of an older one"),
    ("channels-open", "a new connection has open channels, whatever was asked"),
    ("size-change-accepted", "the rule for refusal 23 is forgotten"),
    ("index-at-limit-accepted", "the rule for refusal 25 lets the first index too large pass"),
];

pub struct Fault {
    name: &'static str,
    /// What the counters are wrong by.
    wrong: [i64; 64],
}

fn at(ring: &Ring, entry: u64) -> usize {
    ((ring.start.load(Relaxed) + entry) % ring.capacity() as u64) as usize
}

/// Sets the mark of a chunk, so many chunks on from the one that a value names.
fn mark(connection: &Connection, channel: u64, value: u64, on: usize, used: bool) {
    let (channel, segment) = (channel as usize, (value & 255) as usize);
    let size = connection.size(channel, segment).load(Relaxed) as u64;
    if let Some(mark) = connection.marks(channel, segment).get(((value >> 8) / size) as usize + on) {
        mark.store(used, Relaxed);
    }
}

fn swap_ends(ring: &Ring) {
    let count = ring.count.load(Relaxed);
    if count > 1 {
        let (first, last) = (&ring.slots()[at(ring, 0)], &ring.slots()[at(ring, count - 1)]);
        let newest = last.swap(first.load(Relaxed), Relaxed);
        first.store(newest, Relaxed);
    }
}

fn restore(connection: &Connection, before: &[u64], places: impl Iterator<Item = usize>) {
    for place in places {
        if connection.can_hold(place, before[place]) {
            connection.write(place, before[place]);
        }
    }
}

impl Fault {
    pub fn new(name: &'static str) -> Fault {
        Fault { name, wrong: [0; 64] }
    }

    pub fn before(&self, machine: &Machine, call: &Call) {
        if let ("reclaim-takes-newest", Call::Reclaim(channel), Some(connection)) =
            (self.name, call, machine.connection())
        {
            if *channel < connection.channels() as u64 {
                swap_ends(connection.completion(*channel as usize));
            }
        }
    }

    /// What the port is taken to have answered.
    pub fn port<'a>(&self, machine: &Machine, call: &Call, answer: &'a str) -> Cow<'a, str> {
        match (self.name, call, judged(machine, call), machine.connection()) {
            ("segment-times-channels", Call::Reclaim(_), Some((value, _)), Some(connection)) => {
                let (segment, segments) = ((value & 255) as usize, connection.segments());
                let passes = segment >= segments && segment < segments * connection.channels();
                if passes && answer.starts_with("refused 32 ") {
                    format!("value {value}").into()
                } else {
                    answer.into()
                }
            }
            _ => answer.into(),
        }
    }

    /// The refusal of the port's own that is expected in place of the right one.
    pub fn refusal(&self, call: &Call, machine: &Machine, right: Option<u32>) -> Option<u32> {
        match (self.name, right, call, machine.connection()) {
            ("size-change-accepted", Some(23), _, _) => None,
            ("index-at-limit-accepted", Some(25), Call::Send { offset, segment, size, channel }, Some(connection)) => {
                let samples = connection.marks(*channel as usize, *segment as usize).len() as u64;
                (offset % (1 << 56) / size != samples).then_some(25)
            }
            _ => right,
        }
    }

    /// Spoils what the call left and answered. `before` has the words before it.
    pub fn after(&mut self, machine: &mut Machine, call: &Call, answer: &mut String, before: &[u64]) {
        match *call {
            Call::Counters if answer.starts_with("list") => self.show_counters(answer),
            Call::BorrowCount(channel) => {
                if let Some(count) = answer.strip_prefix("count ").and_then(|count| count.parse::<i64>().ok()) {
                    *answer = format!("count {}", count + self.wrong[channel as usize]);
                }
            }
            Call::Create(port) => self.created(machine, port, answer, before),
            Call::Close(port) => self.closed(machine, port, answer),
            _ => match machine.connection() {
                Some(connection) => self.moved(connection, call, answer, before),
                None => (),
            },
        }
    }

    fn show_counters(&self, answer: &mut String) {
        let counts = answer.split(' ').skip(1).map(|count| count.parse::<i64>().unwrap_or(0));
        let wrong: Vec<u64> = counts.zip(self.wrong).map(|(count, wrong)| (count + wrong) as u64).collect();
        *answer = listed(&wrong);
    }

    fn moved(&mut self, connection: &Connection, call: &Call, answer: &mut String, before: &[u64]) {
        let value = answer.split(' ').nth(1).and_then(|value| value.parse::<u64>().ok()).unwrap_or(0);
        let kind = answer.split(' ').next().unwrap_or_default().to_string();
        let refused = |number: u64| kind == "refused" && value == number;
        match (self.name, *call) {
            ("evicted-stays-marked", Call::Send { channel, .. }) if kind == "evicted" => {
                mark(connection, channel, value, 0, true);
            }
            ("evicted-not-answered", Call::Send { .. }) if kind == "evicted" => *answer = "ok".to_string(),
            ("ring-without-mod", Call::Send { channel, .. }) if kind == "ok" || kind == "evicted" => {
                let ring = connection.submission(channel as usize);
                let entry = ring.count.load(Relaxed) - 1;
                if ring.start.load(Relaxed) + entry >= ring.capacity() as u64 {
                    let first = connection.channel_place(channel as usize) + 5;
                    ring.slots()[at(ring, entry)].store(before[first + at(ring, entry)], Relaxed);
                }
            }
            ("size-not-recorded", Call::Send { channel, segment, .. }) if kind == "ok" || kind == "evicted" => {
                let place = connection.detail_place(channel as usize, segment as usize);
                restore(connection, before, place..place + 1);
            }
            ("corrupted-send-undone", Call::Send { .. }) if refused(27) => {
                restore(connection, before, 0..connection.needed())
            }
            ("full-release-counts", Call::Release { channel, .. }) if refused(41) => self.wrong[channel as usize] -= 1,
            ("completion-shorter", Call::Release { channel, .. }) if kind == "ok" => {
                if connection.completion(channel as usize).is_full() {
                    *answer = "refused 41 RetrieveBufferFull".to_string();
                }
            }
            ("receive-not-counted", Call::Receive(channel)) if kind == "value" => self.wrong[channel as usize] -= 1,
            ("receive-counts-elsewhere", Call::Receive(channel)) if kind == "value" => {
                self.wrong[channel as usize] -= 1;
                self.wrong[(channel as usize + 1) % connection.channels()] += 1;
            }
            ("none-at-the-limit", Call::Receive(channel)) if refused(40) => {
                if connection.submission(channel as usize).is_empty() {
                    *answer = "none".to_string();
                }
            }
            ("pop-clears-slot", Call::Receive(channel)) if kind == "value" => {
                let ring = connection.submission(channel as usize);
                ring.slots()[at(ring, ring.capacity() as u64 - 1)].store(0, Relaxed);
            }
            ("reclaim-keeps-mark", Call::Reclaim(channel)) if kind == "value" => {
                mark(connection, channel, value, 0, true)
            }
            ("neighbour-mark-cleared", Call::Reclaim(channel)) if kind == "value" => {
                mark(connection, channel, value, 1, false)
            }
            ("has-data-at-two", Call::HasData(channel)) if kind == "yes" => {
                if connection.submission(channel as usize).count.load(Relaxed) < 2 {
                    *answer = "no".to_string();
                }
            }
            _ => (),
        }
    }

    fn created(&self, machine: &Machine, port: Port, answer: &mut String, before: &[u64]) {
        let Some(connection) = machine.connection() else { return };
        let bit = if port == Port::Sender { 1 } else { 2 };
        let fresh = answer == "ok" && connection.port_state().load(Relaxed) == bit;
        let details = connection.detail_place(0, 0)..connection.needed();
        match self.name {
            "mismatch-keeps-bit" if answer.contains("Incompatible") => {
                connection.port_state().fetch_or(bit, Relaxed);
            }
            "mismatches-swapped" if answer.starts_with("refused 10 ") => {
                if connection.overflows() != machine.settings().overflow {
                    *answer = "refused 11 IncompatibleOverflowSetting".to_string();
                }
            }
            "old-marks-stay" if fresh => restore(connection, before, details),
            "channels-open" if fresh => {
                (0..connection.channels()).for_each(|channel| connection.write(connection.channel_place(channel), 0));
            }
            _ => (),
        }
    }

    fn closed(&self, machine: &Machine, port: Port, answer: &mut String) {
        let bit = if port == Port::Sender { 1 } else { 2 };
        if let ("close-leaves-bit", Some(connection), "state") = (self.name, machine.connection(), &answer[..5]) {
            connection.port_state().fetch_or(bit, Relaxed);
            *answer = format!("state {}", connection.port_state().load(Relaxed));
        }
    }
}
