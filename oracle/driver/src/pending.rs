//! Pending sends. The crate's `blocking_send` returns only when it has ended, so each runs in a thread of its own, which hands back
//! after every poll of its wait: one thread runs at a time, and waits interleave as the script says.

use crate::machine::{Sender, sent};
use crate::panics::caught;
use crate::script::{Action, Wait};
use core::time::Duration;
use iceoryx2_bb_posix::adaptive_wait::pause_between_polls;
use iceoryx2_cal::zero_copy_connection::{BackpressureToReceiverAction, ChannelId, ZeroCopySender};
use std::sync::mpsc;
use std::thread::JoinHandle;

pub enum Turn {
    Pending,
    Ended(Result<String, String>),
}

struct Thread {
    go: Option<mpsc::Sender<()>>,
    back: mpsc::Receiver<Turn>,
    thread: Option<JoinHandle<()>>,
}

/// A pending send with what its next step depends on.
pub struct Pending {
    pub wait: Wait,
    pub steps: u64,
    pub retries: u64,
    pub until_delivered: bool,
    thread: Option<Thread>,
}

fn action(action: Action) -> BackpressureToReceiverAction {
    match action {
        Action::Follow => BackpressureToReceiverAction::FollowBackpressureyStrategy,
        Action::Retry => BackpressureToReceiverAction::Retry,
        Action::Discard => BackpressureToReceiverAction::DiscardPointerOffset,
        Action::Fail => BackpressureToReceiverAction::DiscardPointerOffsetAndFail,
    }
}

fn send(sender: &Sender, wait: &Wait) -> String {
    let policy = wait.policy;
    let asked = move |retries: u64, elapsed: Duration| action(policy.action(retries, elapsed.as_nanos() as u64));
    let pointer = crate::machine::pointer(wait.offset, wait.segment);
    let channel = ChannelId::new(wait.channel as usize);
    sent(sender.blocking_send(pointer, wait.size as usize, channel, asked, action(wait.strategy)))
}

impl Thread {
    /// The sender must stay where it is until the thread has ended.
    fn start(sender: &Sender, wait: Wait) -> Thread {
        let (go, told) = mpsc::channel::<()>();
        let (tell, back) = mpsc::channel();
        let sender = sender as *const Sender as usize;
        let thread = std::thread::spawn(move || {
            let paused = tell.clone();
            if told.recv().is_err() {
                return;
            }
            pause_between_polls(move || {
                let _ = paused.send(Turn::Pending);
                if told.recv().is_err() {
                    panic!("abandoned");
                }
            });
            let answer = caught(|| send(unsafe { &*(sender as *const Sender) }, &wait));
            let _ = tell.send(Turn::Ended(answer));
        });
        Thread { go: Some(go), back, thread: Some(thread) }
    }

    fn turn(&self) -> Turn {
        let _ = self.go.as_ref().map(|go| go.send(()));
        self.back.recv().unwrap_or(Turn::Ended(Err("a thread that ended".to_string())))
    }
}

impl Drop for Thread {
    fn drop(&mut self) {
        self.go = None;
        let _ = self.thread.take().map(JoinHandle::join);
    }
}

impl Pending {
    pub fn new(wait: Wait) -> Pending {
        Pending { wait, steps: 0, retries: 0, until_delivered: false, thread: None }
    }

    pub fn action(&self) -> Action {
        self.wait.policy.action(self.retries, self.steps)
    }

    pub fn step(&mut self, sender: &Sender) -> Turn {
        let action = self.action();
        let turn = self.thread.get_or_insert_with(|| Thread::start(sender, self.wait)).turn();
        if let Turn::Pending = turn {
            self.steps += 1;
            if !self.until_delivered {
                self.retries += 1;
                self.until_delivered = action == Action::Follow;
            }
            self.wait.budget = self.wait.budget.saturating_sub(1);
        }
        turn
    }
}
