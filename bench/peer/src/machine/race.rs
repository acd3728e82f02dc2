//! A race, planted so that checks can see it found: a commit looks at the frames, lets go of the
//! lock, and takes the blocks offline without looking again.

use super::{CLASS_OF, FREE, LiveOp, Machine, OFFLINE, State, Zone, ones};
use crate::event::{CallFault, Event, Refusal, Reply, Wish};
use std::sync::Mutex;

impl Machine {
    /// Makes a call as the threads of `run` do, with the race.
    pub fn call_racing(
        machine: &Mutex<Machine>,
        cpu: u32,
        event: &Event,
    ) -> Result<(u64, Reply), CallFault> {
        let lock = || machine.lock().unwrap_or_else(|e| e.into_inner());
        if let Event::Commit { op } = *event {
            let looked = lock().all_free(op);
            std::thread::yield_now();
            let mut m = lock();
            m.looked = looked;
            let answer = m.call(cpu, event);
            m.looked = None;
            return answer;
        }
        lock().call(cpu, event)
    }

    /// Returns the operation if a commit of it would be done now.
    fn all_free(&self, op: u64) -> Option<LiveOp> {
        let live = self.live(op)?;
        ones(live.going).all(|b| self.not_free(b).is_none()).then_some(live)
    }

    /// Commits an operation whose frames were free at an earlier look, whatever has become of them.
    pub(super) fn commit_looked(&mut self, live: LiveOp) -> Result<Reply, Refusal> {
        for b in ones(live.going) {
            self.force_offline(b);
        }
        for b in ones(live.coming) {
            match self.rows[b as usize] {
                row if row.state != State::Offline => {}
                row if row.wish == Some(Wish::Movable) => self.go_online(b, Zone::Movable),
                _ => self.go_online(b, Zone::Normal),
            }
        }
        Ok(Reply::Done)
    }

    /// Takes a block offline without the frames of it that are in use; what has them keeps them.
    fn force_offline(&mut self, block: u32) {
        for f in self.frames_of(block) {
            let tag = self.tag[f as usize];
            if tag & FREE != 0 {
                let class = usize::from(CLASS_OF[usize::from(self.kind_of(f))]);
                self.unlink(class << 4 | usize::from(tag & 15), f);
            }
        }
        for pageblock in self.pageblocks(block) {
            self.set_kind(pageblock, 0);
        }
        self.set_row(block, OFFLINE);
    }
}
