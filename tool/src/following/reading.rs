// SPDX-License-Identifier: Apache-2.0 OR MIT
//! Reads: the items that returns come of are taken off the lists, and each return has what it is about.
use super::*;
use crate::codes::*;
use crate::record::Parcel;
use crate::rules::{Item, List, Listed, Way};

/// A notice that was read, and which of its returns are still to come.
struct Notice {
    object: ObjectId,
    left: Vec<u32>,
}

impl Space {
    pub(super) fn read_as(&mut self, act: Act, stream: &[u8], parcel: Parcel<'_>, facts: &mut Facts) {
        let has_own = self.threads.get(act.seat).map_or(false, |it| !it.todo.is_empty());
        let mut lists = [List::Thread(act.seat), List::Process(act.process)];
        if !has_own {
            lists.reverse();
        }
        let mut notice = None;
        for message in Returns(stream) {
            let about = match &message {
                Ok(message) if message.code.number != BR_NOOP => self.returned(act, lists, message, &mut notice),
                _ => About::Nothing,
            };
            if let Ok(Message { payload: Payload::Record(record), .. }) = message {
                if matches!(about, About::Sent(_)) {
                    facts.carried = self.carried(pointed(act.process, record.buffer));
                }
                facts.carried.resize(parcel.offsets.len() / 8, None);
            }
            facts.about.push(about);
        }
        self.end_read();
    }

    /// What a return is about, whose item is taken off its list. One without an item is passed over.
    fn returned(&mut self, act: Act, lists: [List; 2], message: &Message, notice: &mut Option<Notice>) -> About {
        if let Some(it) = notice.as_mut().filter(|it| it.left.first() == Some(&message.code.number)) {
            it.left.remove(0);
            return About::Object(it.object);
        }
        let found = lists.iter().find_map(|list| Some((*list, self.place_of(act, *list, message)?)));
        let (list, at) = match found {
            Some(found) => found,
            None => return About::Nothing,
        };
        let object = self.list(list).and_then(|it| match it.get(at)?.item {
            Item::Notice(object) => self.id_of(object),
            _ => None,
        });
        let (listed, got) = match self.take(act.seat, list, at) {
            Some(taken) => taken,
            None => return About::Nothing,
        };
        if let Some(object) = object {
            let mut left: Vec<u32> = Returns(&got.stream).flatten().map(|it| it.code.number).collect();
            left.retain(|it| *it != message.code.number);
            *notice = Some(Notice { object, left });
            return About::Object(object);
        }
        self.about(act, listed)
    }

    fn about(&mut self, act: Act, listed: Listed) -> About {
        match listed.item {
            Item::Call(buffer) | Item::Reply(buffer) => {
                self.name_buffer(buffer, act.place + 1);
                self.buffer(buffer).map_or(About::Nothing, |it| About::Sent(self.sent(it)))
            }
            Item::Verdict(_) => About::Call(listed.call.0.or(listed.by.0).unwrap_or(0)),
            Item::Complete(_) | Item::Refusal(_) => About::Call(listed.by.0.unwrap_or(0)),
            Item::Death(number) => {
                let deaths = self.processes.get(act.process).map(|it| &it.deaths);
                let death = deaths.and_then(|it| it.iter().find(|it| it.number == number));
                death.map_or(About::Nothing, |it| About::Death(number, ObjectId::new(it.object)))
            }
            Item::Notice(_) | Item::Cleared(_) => About::Nothing,
        }
    }

    /// Where on a list the oldest item stands that reads as a return. Of calls and replies it is the one whose buffer was read.
    fn place_of(&self, act: Act, list: List, message: &Message) -> Option<usize> {
        let todo = self.list(list)?;
        let read = message.record().map(|it| pointed(act.process, it.buffer));
        let is_read = |it: &Listed| matches!(it.item, Item::Call(buffer) | Item::Reply(buffer) if Some(buffer) == read);
        let reads = |it: &Listed| self.reads_as(act, &it.item, message);
        todo.iter().position(|it| is_read(it) && reads(it)).or_else(|| todo.iter().position(reads))
    }

    fn reads_as(&self, act: Act, item: &Item, message: &Message) -> bool {
        let code = message.code.number;
        match (*item, message.payload) {
            (Item::Notice(object), Payload::PtrCookie(ptr, cookie)) => {
                object.1 == ptr && self.objects.get(object).map_or(false, |it| it.cookie == cookie)
            }
            (Item::Complete(is_suspect), _) => {
                let suspect = code == BR_ONEWAY_SPAM_SUSPECT && (is_suspect || self.ways.has(Way::Spam));
                suspect || code == BR_TRANSACTION_COMPLETE && (!is_suspect || self.ways.has(Way::Spam))
            }
            (Item::Refusal(reads) | Item::Verdict(reads), _) => code == reads,
            (Item::Call(_), _) => code == BR_TRANSACTION,
            (Item::Reply(_), _) => code == BR_REPLY,
            (Item::Death(number), Payload::Cookie(cookie)) => {
                let deaths = self.processes.get(act.process).map(|it| &it.deaths);
                let is_it = |it: &crate::rules::Death| it.number == number && it.cookie == cookie;
                code == BR_DEAD_BINDER && deaths.map_or(false, |it| it.iter().any(is_it))
            }
            (Item::Cleared(its), Payload::Cookie(cookie)) => code == BR_CLEAR_DEATH_NOTIFICATION_DONE && its == cookie,
            _ => false,
        }
    }
}
