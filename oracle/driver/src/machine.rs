//! The calls of a script, made on the crate.

use crate::differences::{OUTLIVED, UNREGISTERED};
use crate::panics::{again, caught};
use crate::pending::{Pending, Turn};
use crate::script::{Call, Port, Settings, Stage, State, StateCall};
use crate::told::{self, Told};
use crate::words::Connection;
use core::sync::atomic::Ordering::Relaxed;
use iceoryx2_bb_posix::file::AccessMode;
use iceoryx2_bb_system_types::file_name::FileName;
use iceoryx2_cal::dynamic_storage::{DynamicStorage, DynamicStorageBuilder, DynamicStorageOpenError, process_local};
use iceoryx2_cal::named_concept::{NamedConceptBuilder, NamedConceptConfiguration, NamedConceptMgmt};
use iceoryx2_cal::shared_memory::{PointerOffset, SegmentId};
use iceoryx2_cal::zero_copy_connection::common::details::{self, SharedManagementData};
use iceoryx2_cal::zero_copy_connection::{
    CHANNEL_STATE_CLOSED, ChannelId, ChannelState, ChannelStateNewError, ZeroCopyConnection, ZeroCopyConnectionBuilder,
    ZeroCopyPortDetails, ZeroCopyReceiver, ZeroCopySendError, ZeroCopySender,
};
use std::collections::BTreeMap;
use std::fmt::{Debug, Write};

type Storage = process_local::Storage<SharedManagementData>;
type Wire = details::Connection<Told>;
pub type Sender = details::Sender<Told>;
type Receiver = details::Receiver<Told>;

/// The names that the crate's errors share with ours, with their numbers.
const NUMBERS: [(&str, u32); 23] = [
    ("InitializationNotYetFinalized", 3),
    ("VersionMismatch", 4),
    ("InternalError", 5),
    ("AnotherInstanceIsAlreadyConnected", 7),
    ("IsBeingCleanedUp", 8),
    ("IncompatibleBufferSize", 9),
    ("IncompatibleMaxBorrowedSamplesPerChannelSetting", 10),
    ("IncompatibleOverflowSetting", 11),
    ("IncompatibleNumberOfSamples", 12),
    ("IncompatibleNumberOfSegments", 13),
    ("IncompatibleNumberOfChannels", 14),
    ("DoesNotExist", 15),
    ("ReceiveBufferFull", 20),
    ("ConnectionCorrupted", 27),
    ("NoConnectedReceiverAndBufferIsFull", 28),
    ("ChannelIsClosed", 29),
    ("UnableToDeliver", 30),
    ("ReceiverReturnedCorruptedPointerOffset", 32),
    ("ReceiveWouldExceedMaxBorrowValue", 40),
    ("RetrieveBufferFull", 41),
    ("ValueOutOfBounds", 52),
    ("InsufficientPermissions", 0),
    ("UsedChunkListFull", 0),
];

fn refused(error: impl Debug) -> String {
    let name = format!("{error:?}");
    let number = NUMBERS.iter().find(|known| known.0 == name).map_or(0, |known| known.1);
    format!("refused {number} {name}")
}

/// `list` and the numbers.
pub fn listed(numbers: &[u64]) -> String {
    let mut text = String::with_capacity(8 + 3 * numbers.len());
    text.push_str("list");
    for number in numbers {
        let _ = write!(text, " {number}");
    }
    text
}

fn value_or_none(answer: Result<Option<PointerOffset>, impl Debug>) -> String {
    match answer {
        Ok(Some(value)) => format!("value {}", value.as_value()),
        Ok(None) => "none".to_string(),
        Err(error) => refused(error),
    }
}

fn ok_or(answer: Result<(), impl Debug>) -> String {
    answer.map_or_else(refused, |()| "ok".to_string())
}

/// What a script holds on the crate's side.
pub struct Machine {
    name: FileName,
    settings: Settings,
    sender: Option<Box<Sender>>,
    receiver: Option<Receiver>,
    waits: BTreeMap<u64, Pending>,
    /// How many counters the receiver has.
    counters: u64,
    /// The error that the storage is told to open with.
    error: Option<DynamicStorageOpenError>,
    /// The connection, opened once more so that its words can be read.
    view: Option<Storage>,
    /// All words of the storage: the connection's as they were when they were last read, and those behind them.
    words: Vec<u64>,
    /// A difference of differences.rs that the last call made without showing it in its answer.
    pub parted: Option<&'static str>,
}

impl Machine {
    /// A machine for a storage of so many words. Only one machine has the name at a time.
    pub fn new(name: &str, length: u64) -> Machine {
        let name = FileName::new_const(name.as_bytes());
        let machine = Machine {
            name,
            settings: Settings::first(),
            sender: None,
            receiver: None,
            waits: BTreeMap::new(),
            counters: 0,
            error: None,
            view: None,
            words: vec![0; length as usize],
            parted: None,
        };
        told::fail_with(None);
        machine.remove();
        machine
    }

    fn config() -> process_local::Configuration<SharedManagementData> {
        process_local::Configuration::default()
            .path_hint(&Wire::default_path_hint())
            .prefix(&Wire::default_prefix())
            .suffix(&<Wire as ZeroCopyConnection>::default_suffix())
    }

    fn remove(&self) {
        let _ = unsafe { Told::remove_cfg(&self.name, &Self::config()) };
    }

    fn exists(&self) -> bool {
        Told::does_exist_cfg(&self.name, &Self::config()).is_ok_and(|exists| exists)
    }

    /// The connection, where the storage is Ready.
    pub fn connection(&self) -> Option<&Connection> {
        self.view.as_ref().filter(|_| self.error.is_none()).map(|view| Connection::of(view.get()))
    }

    /// Whether the storage is Absent.
    pub fn is_absent(&self) -> bool {
        self.view.is_none() && self.error.is_none()
    }

    pub fn settings(&self) -> &Settings {
        &self.settings
    }

    pub fn length(&self) -> u64 {
        self.words.len() as u64
    }

    pub fn holds(&self, port: Port) -> bool {
        match port {
            Port::Sender => self.sender.is_some(),
            Port::Receiver => self.receiver.is_some(),
        }
    }

    /// The receiver's counter of a channel.
    pub fn borrowed(&self, channel: usize) -> u64 {
        match &self.receiver {
            Some(receiver) if (channel as u64) < self.counters => receiver.borrow_count(ChannelId::new(channel)) as u64,
            _ => 0,
        }
    }

    /// Whether the crate can hold a word at a place: settings cannot be replaced, a mark is 0 or 1, the port state a byte.
    pub fn can_hold(&self, place: u64, word: u64) -> bool {
        match self.connection() {
            Some(connection) if place < connection.needed() as u64 => connection.can_hold(place as usize, word),
            Some(_) => true,
            None => self.view.is_none(),
        }
    }

    /// All words of the storage.
    pub fn words(&mut self) -> &[u64] {
        if let Some(view) = &self.view {
            Connection::of(view.get()).list(&mut self.words);
        }
        &self.words
    }

    /// Whether the words are read as the crate has them.
    pub fn reads_rightly(&self) -> bool {
        self.view.as_ref().is_some_and(|view| Connection::of(view.get()).agrees_with_debug(view.get()))
    }

    /// Makes a call: its answer, or the assertion that it tripped.
    pub fn perform(&mut self, call: &Call) -> Result<String, String> {
        caught(|| self.answer(call))
    }

    /// A call that the port refused by a refusal of its own is not made. A close gives up the port all the same, and a pending
    /// send ends.
    pub fn pass_over(&mut self, call: &Call) {
        match call {
            Call::Close(port) => self.forget(*port),
            Call::Step(id) => drop(self.waits.remove(id)),
            _ => (),
        }
    }

    /// Gives up a port without closing it. Its pending sends end.
    fn forget(&mut self, port: Port) {
        match port {
            Port::Sender => {
                self.waits.clear();
                std::mem::forget(self.sender.take());
            }
            Port::Receiver => std::mem::forget(self.receiver.take()),
        }
    }

    pub fn waiting(&self, id: u64) -> Option<&Pending> {
        self.waits.get(&id)
    }

    fn answer(&mut self, call: &Call) -> String {
        match *call {
            Call::Condition => self.condition().to_string(),
            Call::Length => format!("count {}", self.words.len()),
            Call::Words => listed(self.words()),
            Call::Counters => self.counters(),
            Call::Read(place) => match self.words().get(place as usize) {
                Some(word) => format!("value {word}"),
                None => "none".to_string(),
            },
            Call::Write(place, word) => self.write(place as usize, word),
            Call::SetCondition(stage) => match self.error {
                None | Some(DynamicStorageOpenError::InitializationNotYetFinalized) => self.set_code(stage as u64),
                _ => "no".to_string(),
            },
            Call::Code(code) => self.set_code(code),
            Call::Settings(settings) => self.set(settings),
            Call::Create(port) => self.create(port),
            Call::Close(port) => self.close(port),
            Call::Value(offset, segment) => format!("value {}", pointer(offset, segment).as_value()),
            Call::Offset(value) => {
                let pointer = PointerOffset::from_value(value);
                format!("segment {} offset {}", pointer.segment_id().value(), pointer.offset())
            }
            Call::Wait(wait) => match self.sender {
                Some(_) => {
                    self.waits.insert(wait.id, Pending::new(wait));
                    "ok".to_string()
                }
                None => "noport".to_string(),
            },
            Call::Step(id) => self.step(id),
            Call::ChannelState(call, channel, state) => self.channel_state(call, channel, state),
            Call::IsChannelClosed(channel) => match self.any_port() {
                Some(port) => yes_or_no(port.is_channel_closed(ChannelId::new(channel as usize))),
                None => "noport".to_string(),
            },
            Call::Remove(port) => self.remove_port(port),
            Call::Send { .. } | Call::Reclaim(_) | Call::Acquire(_) => match &self.sender {
                Some(sender) => send_or_reclaim(sender, call),
                None => "noport".to_string(),
            },
            Call::Receive(_) | Call::Release { .. } | Call::HasData(_) | Call::BorrowCount(_) => match &self.receiver {
                Some(receiver) => receive_or_release(receiver, call),
                None => "noport".to_string(),
            },
        }
    }

    fn condition(&self) -> &'static str {
        match self.error {
            None if self.exists() => "ready",
            None => "absent",
            Some(DynamicStorageOpenError::InitializationNotYetFinalized) => "forming",
            Some(DynamicStorageOpenError::VersionMismatch) => "other",
            Some(_) => "broken",
        }
    }

    /// Takes the condition that a code of docs/STORAGE.md states.
    fn set_code(&mut self, code: u64) -> String {
        self.error = match code {
            0 | 2 => None,
            1 => Some(DynamicStorageOpenError::InitializationNotYetFinalized),
            3 | 4 => Some(DynamicStorageOpenError::InternalError),
            _ => Some(DynamicStorageOpenError::VersionMismatch),
        };
        told::fail_with(self.error);
        if code == 0 {
            self.words();
            self.remove();
            self.view = None;
        }
        "yes".to_string()
    }

    /// Whether the crate can take the condition that a call asks for: it has no connection to show where it removed it.
    pub fn can_take(&self, call: &Call) -> bool {
        !matches!(call, Call::SetCondition(Stage::Ready) | Call::Code(2)) || self.view.is_some()
    }

    fn counters(&mut self) -> String {
        if self.receiver.is_none() {
            return "noport".to_string();
        }
        let asked = self.settings.raised().channels.min(64);
        listed(&(0..asked as usize).map(|channel| self.borrowed(channel)).collect::<Vec<_>>())
    }

    fn write(&mut self, place: usize, word: u64) -> String {
        if place >= self.words.len() {
            return "no".to_string();
        }
        match self.connection() {
            Some(connection) if place < connection.needed() => {
                connection.write(place, word);
            }
            _ => self.words[place] = word,
        }
        "yes".to_string()
    }

    fn set(&mut self, settings: Settings) -> String {
        if let Err(error) = channel_state(settings.state) {
            return refused(error);
        }
        self.settings = settings;
        "ok".to_string()
    }

    fn builder(&self) -> details::Builder<Told> {
        let state = channel_state(self.settings.state).unwrap();
        details::Builder::<Told>::new(&self.name)
            .buffer_size(self.settings.buffer_size as usize)
            .receiver_max_borrowed_samples_per_channel(self.settings.max_borrowed as usize)
            .number_of_samples_per_segment(self.settings.samples as usize)
            .max_supported_shared_memory_segments(self.settings.segments as u8)
            .number_of_channels(self.settings.channels as usize)
            .enable_safe_overflow(self.settings.overflow)
            .initial_channel_state(state)
    }

    fn create(&mut self, port: Port) -> String {
        let unregistered = self.connection().is_some_and(|connection| connection.port_state().load(Relaxed) == 0);
        let outlived = self.is_absent() && (self.sender.is_some() || self.receiver.is_some());
        let answer = match port {
            Port::Sender => self.builder().create_sender().map(|sender| {
                self.forget(port);
                self.sender = Some(Box::new(sender));
            }),
            Port::Receiver => self.builder().create_receiver().map(|receiver| {
                self.forget(port);
                self.receiver = Some(receiver);
            }),
        };
        self.look();
        if port == Port::Receiver && answer.is_ok() {
            self.counters = self.settings.raised().channels;
        }
        self.parted = match answer {
            Err(_) if unregistered => Some(UNREGISTERED),
            Ok(()) if outlived => Some(OUTLIVED),
            _ => None,
        };
        ok_or(answer)
    }

    fn close(&mut self, port: Port) -> String {
        if port == Port::Sender {
            self.waits.clear();
        }
        let held = match port {
            Port::Sender => self.sender.take().map(drop),
            Port::Receiver => self.receiver.take().map(drop),
        };
        if held.is_none() {
            return "noport".to_string();
        }
        let left = self.connection().map_or(0, |connection| connection.port_state().load(Relaxed));
        self.look();
        format!("state {left}")
    }

    fn step(&mut self, id: u64) -> String {
        let Some(sender) = &self.sender else {
            return "noport".to_string();
        };
        let Some(pending) = self.waits.get_mut(&id) else {
            return "nowait".to_string();
        };
        match pending.step(sender) {
            Turn::Pending => "pending".to_string(),
            Turn::Ended(answer) => {
                self.waits.remove(&id);
                answer.unwrap_or_else(|panic| again(panic))
            }
        }
    }

    /// Either port has the functions on channel states.
    fn any_port(&self) -> Option<&dyn ZeroCopyPortDetails> {
        match (&self.sender, &self.receiver) {
            (Some(sender), _) => Some(&**sender),
            (None, Some(receiver)) => Some(receiver),
            (None, None) => None,
        }
    }

    fn channel_state(&self, call: StateCall, channel: u64, state: State) -> String {
        let Some(port) = self.any_port() else {
            return "noport".to_string();
        };
        let state = match channel_state(state) {
            Ok(state) => state,
            Err(error) => return refused(error),
        };
        let channel = ChannelId::new(channel as usize);
        match call {
            StateCall::Set => yes_or_no(port.set_channel_state(channel, state)),
            StateCall::HasHint => yes_or_no(port.has_disconnect_hint(channel, state)),
            StateCall::Has => yes_or_no(port.has_channel_state(channel, state)),
            StateCall::SetHint => {
                port.set_disconnect_hint(channel, state);
                "ok".to_string()
            }
            StateCall::Close => {
                port.close_channel(channel, state);
                "ok".to_string()
            }
        }
    }

    /// The port is taken for dead: it makes no further call.
    fn remove_port(&mut self, port: Port) -> String {
        self.words();
        let config = details::Configuration::<Told>::default();
        let removed = match port {
            Port::Sender => unsafe { Wire::remove_sender(&self.name, &config) },
            Port::Receiver => unsafe { Wire::remove_receiver(&self.name, &config) },
        };
        if let Err(error) = removed {
            return refused(error);
        }
        self.forget(port);
        self.error = None;
        told::fail_with(None);
        self.look();
        "done".to_string()
    }

    /// After a call that can make or remove the connection: keeps its last words, and opens it where it exists.
    fn look(&mut self) {
        self.words();
        let builder = process_local::Builder::new(&self.name).config(&Self::config());
        self.view = builder.open(AccessMode::ReadWrite).ok();
    }
}

impl Drop for Machine {
    fn drop(&mut self) {
        self.waits.clear();
        self.remove();
    }
}

pub fn pointer(offset: u64, segment: u8) -> PointerOffset {
    PointerOffset::from_offset_and_segment_id(offset as usize, SegmentId::new(segment))
}

fn channel_state(state: State) -> Result<ChannelState, ChannelStateNewError> {
    match state {
        State::Number(value) => ChannelState::new(value),
        State::Closed => Ok(CHANNEL_STATE_CLOSED),
    }
}

pub fn sent(answer: Result<Option<PointerOffset>, ZeroCopySendError>) -> String {
    match answer {
        Ok(None) => "ok".to_string(),
        Ok(Some(evicted)) => format!("evicted {}", evicted.as_value()),
        Err(error) => refused(error),
    }
}

fn send_or_reclaim(sender: &Sender, call: &Call) -> String {
    match *call {
        Call::Send { offset, segment, size, channel } => {
            sent(sender.try_send(pointer(offset, segment), size as usize, ChannelId::new(channel as usize)))
        }
        Call::Acquire(_) => {
            let mut values = Vec::new();
            unsafe { sender.acquire_used_offsets(|value| values.push(value.as_value())) };
            listed(&values)
        }
        Call::Reclaim(channel) => value_or_none(sender.reclaim(ChannelId::new(channel as usize))),
        _ => unreachable!(),
    }
}

fn receive_or_release(receiver: &Receiver, call: &Call) -> String {
    match *call {
        Call::Receive(channel) => value_or_none(receiver.receive(ChannelId::new(channel as usize))),
        Call::Release { offset, segment, channel } => {
            ok_or(receiver.release(pointer(offset, segment), ChannelId::new(channel as usize)))
        }
        Call::HasData(channel) => yes_or_no(receiver.has_data(ChannelId::new(channel as usize))),
        Call::BorrowCount(channel) => format!("count {}", receiver.borrow_count(ChannelId::new(channel as usize))),
        _ => unreachable!(),
    }
}

fn yes_or_no(yes: bool) -> String {
    if yes { "yes" } else { "no" }.to_string()
}
