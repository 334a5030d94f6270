//! The words of a connection, read out of the crate's own `SharedManagementData` in the numbering of docs/WORDS.md.
//!
//! Its fields are private, so they are read through structs of the same shape. That the shapes agree is checked by their size when
//! this is compiled, and by `agrees_with_debug` on every start.

use core::sync::atomic::{AtomicBool, AtomicU8, AtomicU64, AtomicUsize, Ordering::Relaxed};
use iceoryx2_bb_container::vector::relocatable_vec::RelocatableVec;
use iceoryx2_bb_elementary::relocatable_ptr::{PointerTrait, RelocatablePointer};
use iceoryx2_bb_lock_free::ring::Ring;
use iceoryx2_bb_lock_free::spsc::index_queue::RelocatableIndexQueue;
use iceoryx2_bb_lock_free::spsc::safely_overflowing_index_queue::RelocatableSafelyOverflowingIndexQueue;
use iceoryx2_cal::zero_copy_connection::common::details::SharedManagementData;

#[repr(C)]
struct Channel {
    state: AtomicU64,
    completion: RelocatableIndexQueue,
    submission: RelocatableSafelyOverflowingIndexQueue,
}

#[repr(C)]
struct UsedChunkList {
    marks: RelocatablePointer<AtomicBool>,
    capacity: usize,
    is_memory_initialized: AtomicBool,
}

struct Detail {
    used: UsedChunkList,
    size: AtomicUsize,
}

#[repr(C)]
pub struct Connection {
    channels: RelocatableVec<Channel>,
    details: RelocatableVec<Detail>,
    state: AtomicU8,
    max_borrowed: usize,
    samples: usize,
    segments: u8,
    overflow: bool,
}

const _: () = assert!(size_of::<Connection>() == size_of::<SharedManagementData>());

/// Where a word is kept.
enum Place<'a> {
    Setting,
    Byte(&'a AtomicU8),
    Word(&'a AtomicU64),
    Size(&'a AtomicUsize),
    Mark(&'a AtomicBool),
}

impl Detail {
    fn marks(&self) -> &[AtomicBool] {
        unsafe { core::slice::from_raw_parts(self.used.marks.as_ptr(), self.used.capacity) }
    }
}

impl Connection {
    pub fn of(data: &SharedManagementData) -> &Connection {
        unsafe { &*(data as *const SharedManagementData).cast() }
    }

    pub fn port_state(&self) -> &AtomicU8 {
        &self.state
    }

    pub fn submission(&self, channel: usize) -> &Ring {
        &self.channels[channel].submission.ring
    }

    pub fn completion(&self, channel: usize) -> &Ring {
        &self.channels[channel].completion.ring
    }

    pub fn channels(&self) -> usize {
        self.channels.len()
    }

    pub fn segments(&self) -> usize {
        self.segments as usize
    }

    pub fn channel_state(&self, channel: usize) -> &AtomicU64 {
        &self.channels[channel].state
    }

    /// How many chunks are used.
    pub fn used(&self) -> usize {
        let used = |detail: &Detail| detail.marks().iter().filter(|mark| mark.load(Relaxed)).count();
        self.details.iter().map(used).sum()
    }

    pub fn overflows(&self) -> bool {
        self.overflow
    }

    pub fn size(&self, channel: usize, segment: usize) -> &AtomicUsize {
        &self.details[channel * self.segments() + segment].size
    }

    pub fn marks(&self, channel: usize, segment: usize) -> &[AtomicBool] {
        self.details[channel * self.segments() + segment].marks()
    }

    fn channel_words(&self) -> usize {
        5 + self.submission(0).capacity() + self.completion(0).capacity()
    }

    /// The place of the first word of a channel.
    pub fn channel_place(&self, channel: usize) -> usize {
        8 + channel * self.channel_words()
    }

    /// The place of the size of a segment on a channel.
    pub fn detail_place(&self, channel: usize, segment: usize) -> usize {
        self.channel_place(self.channels.len()) + (channel * self.segments() + segment) * (1 + self.samples)
    }

    /// How many words the connection has.
    pub fn needed(&self) -> usize {
        self.detail_place(self.channels.len(), 0)
    }

    /// Writes all words of the connection to the front of `words`.
    pub fn list(&self, words: &mut [u64]) {
        let header = [
            self.state.load(Relaxed) as u64,
            self.submission(0).capacity() as u64,
            self.max_borrowed as u64,
            self.samples as u64,
            self.segments as u64,
            self.channels.len() as u64,
            self.overflow as u64,
            self.completion(0).capacity() as u64,
        ];
        let channels = self.channels.iter().flat_map(|channel| {
            let (submission, completion) = (&channel.submission.ring, &channel.completion.ring);
            let places = [&channel.state, &submission.start, &submission.count, &completion.start, &completion.count];
            let slots = submission.slots().iter().chain(completion.slots());
            places.into_iter().chain(slots).map(|place| place.load(Relaxed))
        });
        let details = self.details.iter().flat_map(|detail| {
            let marks = detail.marks().iter().map(|mark| mark.load(Relaxed) as u64);
            core::iter::once(detail.size.load(Relaxed) as u64).chain(marks)
        });
        let all = header.into_iter().chain(channels).chain(details);
        words.iter_mut().zip(all).for_each(|(word, value)| *word = value);
    }

    fn place(&self, place: usize) -> Place<'_> {
        if place < 8 {
            return if place == 0 { Place::Byte(&self.state) } else { Place::Setting };
        }
        let (channel, at) = ((place - 8) / self.channel_words(), (place - 8) % self.channel_words());
        if let Some(channel) = self.channels.get(channel) {
            let (submission, completion) = (&channel.submission.ring, &channel.completion.ring);
            let places = [&channel.state, &submission.start, &submission.count, &completion.start, &completion.count];
            let mut all = places.into_iter().chain(submission.slots()).chain(completion.slots());
            return all.nth(at).map_or(Place::Setting, Place::Word);
        }
        let at = place - self.detail_place(0, 0);
        let detail = &self.details[at / (1 + self.samples)];
        match at % (1 + self.samples) {
            0 => Place::Size(&detail.size),
            mark => Place::Mark(&detail.marks()[mark - 1]),
        }
    }

    /// Whether a word below `needed` can be replaced by another.
    pub fn can_hold(&self, place: usize, word: u64) -> bool {
        match self.place(place) {
            Place::Setting => false,
            Place::Byte(_) => word < 256,
            Place::Mark(_) => word < 2,
            Place::Word(_) | Place::Size(_) => true,
        }
    }

    /// Replaces a word that can be replaced.
    pub fn write(&self, place: usize, word: u64) {
        match self.place(place) {
            Place::Setting => (),
            Place::Byte(byte) => byte.store(word as u8, Relaxed),
            Place::Word(at) => at.store(word, Relaxed),
            Place::Size(size) => size.store(word as usize, Relaxed),
            Place::Mark(mark) => mark.store(word != 0, Relaxed),
        }
    }

    /// Whether what is read here is what the crate's own `Debug` shows.
    pub fn agrees_with_debug(&self, data: &SharedManagementData) -> bool {
        let shown = format!("{data:?}");
        let fields = |name: &str| -> Vec<String> {
            let parts = shown.split(name).skip(1);
            parts.map(|part| part.split([',', ' ', '}']).next().unwrap_or_default().to_string()).collect()
        };
        let texts = |numbers: Vec<usize>| -> Vec<String> { numbers.iter().map(|number| number.to_string()).collect() };
        fields(" sample_size: ") == texts(self.details.iter().map(|detail| detail.size.load(Relaxed)).collect())
            && fields(" capacity: ") == texts(self.details.iter().map(|detail| detail.used.capacity).collect())
            && self.details.iter().all(|detail| detail.used.is_memory_initialized.load(Relaxed))
            && fields(" state: ").last() == Some(&self.state.load(Relaxed).to_string())
            && fields(" max_borrowed_samples: ") == texts(vec![self.max_borrowed])
            && fields(" number_of_samples_per_segment: ") == texts(vec![self.samples])
            && fields(" number_of_segments: ") == texts(vec![self.segments as usize])
            && fields(" enable_safe_overflow: ") == [self.overflow.to_string()]
    }
}
