//! Writers. The originals have no room to run out of, no state to be handed in, and no writer that is still there once
//! it is finished: a step that needs one of these is not judged.

use super::{Judge, Unjudged};
use crate::record::WriteStep;
use original::door::write::{Files, Report};

fn done(r: Report) -> String {
    format!(
        "done {} {} {} {} {} {} {}",
        r.items, r.disk, r.stated, r.first.at, r.first.len, r.last.at, r.last.len
    )
}

impl Judge {
    pub(super) fn write(
        &mut self,
        room: u64,
        id: u64,
        target: u64,
        steps: &[WriteStep],
        whole: bool,
    ) -> Result<(), Unjudged> {
        let folder = self.scratch.folder("written");
        let mut files = Files::new(&folder, id, target);
        let mut target = target;
        for step in steps {
            match step {
                WriteStep::Append { key, seqno, value } => {
                    self.append(&mut files, room, key, *seqno, value, None)?;
                }
                WriteStep::Raw { key, seqno, value, stated } => {
                    self.append(&mut files, room, key, *seqno, value, Some(*stated))?;
                }
                WriteStep::Finish if files.is_finished() => return Unjudged::new("finished"),
                WriteStep::Finish => match files.finish() {
                    Some(report) => self.say(done(report)),
                    None => self.say("refused 5"),
                },
                WriteStep::Next if !files.is_finished() => return Unjudged::new("not finished"),
                WriteStep::Next if files.id() == u64::MAX => return Unjudged::new("ids used up"),
                WriteStep::Next => {
                    self.finished_room(room, &files);
                    files.next();
                    self.say(format!("next {}", files.id()));
                }
                WriteStep::Target(new) => {
                    target = *new;
                    files.set_target(target);
                }
                WriteStep::State(_) => return Unjudged::new("a state handed in"),
                WriteStep::Show => self.show(&files, target)?,
            }
        }
        if whole && files.is_finished() {
            self.finished_room(room, &files);
        } else if whole {
            files.close();
            self.room(room, &files.bytes());
        }
        Ok(())
    }

    fn finished_room(&mut self, room: u64, files: &Files) {
        let bytes = files.bytes();
        assert!(bytes.ends_with(b"META"), "a finished file without its end");
        self.room(room, &bytes);
    }

    fn append(
        &mut self,
        files: &mut Files,
        room: u64,
        key: &[u8],
        seqno: u64,
        value: &[u8],
        stated: Option<u32>,
    ) -> Result<(), Unjudged> {
        if files.is_finished() {
            return Unjudged::new("finished");
        }
        let key_fits = (1..=65_535).contains(&key.len());
        let need = files.offset() + 38 + (key.len() + value.len()) as u64 + 4;
        if key_fits && need > room {
            return Unjudged::new("no room");
        }
        let Some((handle, report)) = files.append(key, seqno, value, stated) else {
            self.say("refused 1");
            return Ok(());
        };
        let stated = stated.unwrap_or(handle.size);
        self.say(format!("put {} {} {} {stated}", handle.id, handle.offset, handle.size));
        if let Some(report) = report {
            self.say(done(report));
        }
        Ok(())
    }

    fn show(&mut self, files: &Files, target: u64) -> Result<(), Unjudged> {
        let Some(r) = files.counts() else {
            return Unjudged::new("a finished writer shown");
        };
        let (id, offset) = (files.id(), files.offset());
        self.say(format!(
            "writer {id} {offset} {} {} {} {target} 0 {} {} {} {}",
            r.items, r.disk, r.stated, r.first.at, r.first.len, r.last.at, r.last.len
        ));
        Ok(())
    }
}
