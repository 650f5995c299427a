// SPDX-License-Identifier: Apache-2.0 OR MIT
//! Transactions and replies.
use super::*;
use crate::codes::Message;
use crate::parcel;
use crate::record::Parcel;
use crate::refusals::Kind;
use crate::rules::{Half, What};

/// The cause of a reply without a call, which leaves its writer a refusal alone.
const NO_CALL: u8 = 15;

/// The cause for which something wasn't sent.
fn cause(answer: &Answer<'_>) -> Option<u8> {
    match answer {
        Answer::Refused(reason) if reason.kind == Kind::Cause => Some(reason.number),
        _ => None,
    }
}

fn words(parcel: Parcel<'_>) -> Option<(&[u8], &[u8])> {
    Some((parcel.data, parcel.offsets))
}

impl Space {
    pub(super) fn follow_transaction(
        &mut self,
        act: Act,
        command: &Message,
        parcel: Parcel<'_>,
        answer: &Answer<'_>,
        facts: &mut Facts,
    ) {
        if let Some(cause) = cause(answer) {
            self.commit(act.seat, Half { what: What::TwoWay(None), delivered: Err(cause) }, None);
            return;
        }
        if !matches!(answer, Answer::Accepted) {
            return;
        }
        let half = self.prepare(act.seat, command, words(parcel));
        if let Ok(buffer) = half.delivered {
            self.tell_sent(buffer, facts);
            if let Some(target) = facts.object {
                self.learn(target, facts, parcel.data);
            }
            self.commit(act.seat, half, None);
        }
    }

    pub(super) fn follow_reply(
        &mut self,
        act: Act,
        command: &Message,
        parcel: Parcel<'_>,
        answer: &Answer<'_>,
        facts: &mut Facts,
    ) {
        let served = self.served(act.seat);
        facts.answers = served.map(|it| it.0);
        let pid = facts.answers.and_then(|it| self.frames.get(it)).map(|it| it.caller_pid);
        facts.caller = served.and_then(|it| Some((it.1?, pid?)));
        if let Some(cause) = cause(answer) {
            let call = facts.answers.filter(|_| cause != NO_CALL);
            self.commit(act.seat, Half { what: What::Reply(call), delivered: Err(cause) }, None);
            return;
        }
        if !matches!(answer, Answer::Accepted) {
            return;
        }
        let half = self.prepare(act.seat, command, words(parcel));
        if let Ok(buffer) = half.delivered {
            self.tell_sent(buffer, facts);
            self.commit(act.seat, half, None);
        }
    }

    /// To whom something was sent, and what it carries.
    fn tell_sent(&self, buffer: BufferId, facts: &mut Facts) {
        facts.receiver = self.processes.get(buffer.0).map(|it| it.pid);
        facts.carried = self.carried(buffer);
    }

    /// What a parcel tells of the object that is called, and, where that is the manager, of one that is registered.
    fn learn(&mut self, target: ObjectId, facts: &Facts, data: &[u8]) {
        let is_manager = self.manager.and_then(|it| self.id_of(it)) == Some(target);
        let registers = is_manager && facts.carried.len() == 1;
        let is_known = self.called(target).map_or(false, |it| it.interface.is_some());
        if is_known && !registers {
            return;
        }
        let token = match parcel::token(data) {
            Some(token) => token,
            None => return,
        };
        let registered = facts.carried.first().copied().flatten().filter(|_| registers);
        if let (Some(carried), Some(name)) = (registered, parcel::text_at(data, token.end)) {
            if let Some(called) = self.called_mut(carried.object) {
                called.service.get_or_insert(name.text);
            }
        }
        if let Some(called) = self.called_mut(target) {
            called.interface.get_or_insert(token.text);
        }
    }
}
