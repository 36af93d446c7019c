//! Writers: appends plain and raw, targets met exactly and by one, rotation, finishing by either way.

use super::files::Frame;
use crate::random::Random;
use crate::record::{Record, WriteStep};

struct Plan {
    room: u64,
    target: u64,
    offset: u64,
    items: u64,
    finished: bool,
    steps: Vec<WriteStep>,
}

impl Plan {
    fn append(&mut self, r: &mut Random) {
        let mut frame = Frame::any(r);
        if frame.key.is_empty() && !r.chance(6) {
            frame.key = r.bytes(1);
        }
        let fits = self.offset + frame.len() as u64 + 4 <= self.room;
        if !fits && !r.chance(30) {
            frame.value.truncate(0);
            frame.key.truncate(1);
        }
        let after = self.offset + frame.len() as u64;
        if r.chance(6) {
            // The target met exactly, or missed by one.
            self.set_target(r.pick(&[after, after + 1, after - 1]));
        }
        if !frame.key.is_empty() && after + 4 <= self.room && !self.finished {
            self.offset = after;
            self.items += 1;
            self.finished = after >= self.target;
        }
        let Frame { key, seqno, value, stated } = frame;
        self.steps.push(if r.chance(2) {
            WriteStep::Append { key, seqno, value }
        } else {
            WriteStep::Raw { key, seqno, value, stated }
        });
    }

    fn set_target(&mut self, target: u64) {
        self.target = target;
        self.steps.push(WriteStep::Target(target));
    }

    fn finish(&mut self) {
        self.finished = self.finished || self.items > 0;
        self.steps.push(WriteStep::Finish);
    }

    fn next(&mut self) {
        if self.finished {
            (self.offset, self.items, self.finished) = (0, 0, false);
        }
        self.steps.push(WriteStep::Next);
    }

    /// A state that no writer came to: what follows is judged by document 01 alone.
    fn forge(&mut self, r: &mut Random) {
        let mut state = [0; 11].map(|_| r.number());
        state[6] = r.below(2);
        self.steps.push(WriteStep::State(state));
    }

    fn step(&mut self, r: &mut Random) {
        if self.finished && !r.chance(20) {
            return self.next();
        }
        match r.below(16) {
            0 => self.finish(),
            1 => self.steps.push(WriteStep::Show),
            2 => self.set_target(r.pick(&[0, 1, 80, 200, 1_000, u64::MAX])),
            3 if r.chance(8) => self.next(),
            4 if r.chance(12) => self.forge(r),
            _ => self.append(r),
        }
    }
}

fn exact(r: &mut Random) -> Record {
    let frame = Frame::new(&r.bytes(1), r.number(), &r.bytes(3));
    let Frame { key, seqno, value, .. } = frame;
    Record::Write {
        room: r.pick(&[45, 46, 47]),
        id: r.number(),
        target: r.pick(&[0, 41, 42, 43]),
        steps: vec![WriteStep::Append { key, seqno, value }],
    }
}

/// One frame that nearly fills the largest room.
fn large(r: &mut Random) -> Record {
    let key_len = r.pick(&[1, 15_000, 30_000]);
    let Frame { key, seqno, .. } = Frame::new(&r.bytes(key_len), r.number(), b"");
    let value = r.bytes(32_768 - 42 - key_len);
    let steps = vec![WriteStep::Append { key, seqno, value }, WriteStep::Finish];
    Record::Write { room: 32_768, id: r.number(), target: u64::MAX, steps }
}

pub fn any(r: &mut Random) -> Record {
    if r.chance(12) {
        return exact(r);
    }
    if r.chance(300) {
        return large(r);
    }
    let room = match r.below(12) {
        0 => r.below(60),
        1..=9 => 100 + r.below(900),
        10 => 1_000 + r.below(3_000),
        _ => r.below(8_000),
    };
    let target = r.pick(&[0, 50, 150, 400, 67_108_864, u64::MAX]);
    let id = if r.chance(10) { u64::MAX - r.below(3) } else { r.number() };
    let mut plan = Plan { room, target, offset: 0, items: 0, finished: false, steps: Vec::new() };
    for _ in 0..r.below(9) {
        plan.step(r);
    }
    if !plan.finished || r.chance(20) {
        plan.steps.push(WriteStep::Show);
        if r.chance(2) {
            plan.finish();
        }
    }
    Record::Write { room, id, target, steps: plan.steps }
}
