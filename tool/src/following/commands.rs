// SPDX-License-Identifier: Apache-2.0 OR MIT
//! Commands but those that send something.
use super::*;
use crate::codes::*;
use crate::record::Parcel;

impl Space {
    pub(super) fn follow_command(
        &mut self,
        act: Act,
        command: &Message,
        parcel: Parcel<'_>,
        answer: &Answer<'_>,
        facts: &mut Facts,
    ) {
        let code = command.code.number;
        match command.payload {
            Payload::Record(record) if code == BC_TRANSACTION => {
                facts.object = self.addressed(act.process, record.handle());
                return self.follow_transaction(act, command, parcel, answer, facts);
            }
            Payload::Record(_) => return self.follow_reply(act, command, parcel, answer, facts),
            Payload::Handle(handle) => {
                let is_address = matches!(code, BC_INCREFS | BC_ACQUIRE);
                facts.object =
                    if is_address { self.addressed(act.process, handle) } else { self.named(act.process, handle) };
            }
            Payload::HandleCookie(handle, _) => facts.object = self.named(act.process, handle),
            Payload::PtrCookie(ptr, cookie) => facts.object = self.owned(act.process, ptr, cookie),
            Payload::Buffer(pointer) => {
                let buffer = self.buffer(pointed(act.process, pointer));
                facts.about.extend(buffer.map(|it| About::Sent(self.sent(it))));
            }
            Payload::Cookie(cookie) if matches!(answer, Answer::Accepted) => {
                facts.object = self.told_death(act.process, cookie).map(|it| ObjectId::new(it.object));
            }
            Payload::Cookie(_) | Payload::Nothing => {}
        }
        if matches!(answer, Answer::Accepted) {
            self.command(act.seat, command, None);
            if let (Payload::Buffer(pointer), Some(_)) = (command.payload, facts.about.first()) {
                self.remember_freed(act.process, pointer);
            }
        }
    }

    /// The process's own object with this ptr and cookie.
    fn owned(&self, process: ProcessId, ptr: u64, cookie: u64) -> Option<ObjectId> {
        self.objects.get((process, ptr)).filter(|it| it.cookie == cookie).map(|it| ObjectId::new(it.made))
    }
}
