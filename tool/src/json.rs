// SPDX-License-Identifier: Apache-2.0 OR MIT
//! Entries as values of JSON, one a line. The members that `bplay show --format json` has are the same here; there are more.
use crate::codes::{Message, Payload, Returns, BC_TRANSACTION, BR_TRANSACTION};
use crate::following::{About, Facts, ObjectId, Sent, Space};
use crate::journal::{Answer, Entry, Step};
use crate::parcel;
use crate::record::{Parcel, Record};
use crate::refusals::Kind;
use crate::show::{person_words, spans};
use crate::times::Moment;
use crate::who::Person;
use serde::{Serialize, Serializer};
use std::collections::BTreeMap;

/// A number as a text in hex, since many readers keep only 53 bits.
#[derive(Clone, Copy, Debug, PartialEq, Eq)]
pub struct Hex(pub u64);

impl Serialize for Hex {
    fn serialize<S: Serializer>(&self, to: S) -> Result<S::Ok, S::Error> {
        to.collect_str(&format_args!("{:#x}", self.0))
    }
}

/// What is written as it prints itself.
#[derive(Clone, Copy, Debug, PartialEq, Eq)]
pub struct Word<T>(pub T);

impl<T: std::fmt::Display> Serialize for Word<T> {
    fn serialize<S: Serializer>(&self, to: S) -> Result<S::Ok, S::Error> {
        to.collect_str(&self.0)
    }
}

/// Bytes as two digits of hex for each.
struct Bytes<'a>(&'a [u8]);

impl Serialize for Bytes<'_> {
    fn serialize<S: Serializer>(&self, to: S) -> Result<S::Ok, S::Error> {
        let mut text = Vec::with_capacity(2 * self.0.len());
        parcel::put_hex(&mut text, self.0);
        to.serialize_str(&String::from_utf8_lossy(&text))
    }
}

/// A request, a command or a return: what of these members it has.
#[derive(Default, Serialize)]
struct Said {
    name: &'static str,
    #[serde(skip_serializing_if = "Option::is_none")]
    pid: Option<u32>,
    #[serde(skip_serializing_if = "Option::is_none")]
    euid: Option<u32>,
    #[serde(skip_serializing_if = "Option::is_none")]
    window: Option<u32>,
    #[serde(skip_serializing_if = "Option::is_none")]
    on: Option<bool>,
    #[serde(skip_serializing_if = "Option::is_none")]
    limit: Option<u32>,
    #[serde(skip_serializing_if = "Option::is_none")]
    handle: Option<u32>,
    #[serde(skip_serializing_if = "Option::is_none")]
    ptr: Option<Hex>,
    #[serde(skip_serializing_if = "Option::is_none")]
    cookie: Option<Hex>,
    #[serde(flatten)]
    record: Option<SaidRecord>,
    #[serde(skip_serializing_if = "Option::is_none")]
    sender_pid: Option<i32>,
    #[serde(skip_serializing_if = "Option::is_none")]
    sender_euid: Option<u32>,
    #[serde(skip_serializing_if = "Option::is_none")]
    buffer: Option<Hex>,
}

#[derive(Serialize)]
struct SaidRecord {
    code: u32,
    flags: u32,
    data_size: u64,
    offsets_size: u64,
}

impl Said {
    fn request(step: &Step<'_>) -> Said {
        let said = Said { name: step.name(), ..Said::default() };
        match *step {
            Step::Open { pid, euid, window } => Said { pid: Some(pid), euid: Some(euid), window: Some(window), ..said },
            Step::Attach { pid } => Said { pid: Some(pid), ..said },
            Step::Spam { on } => Said { on: Some(on), ..said },
            Step::Read { limit } => Said { limit: Some(limit), ..said },
            Step::Command { command, .. } => Said::message(&command),
            _ => said,
        }
    }

    fn message(message: &Message) -> Said {
        let said = Said { name: message.code.name, ..Said::default() };
        match message.payload {
            Payload::Nothing => said,
            Payload::Record(record) => Said::record(said, message.code.number, &record),
            Payload::Buffer(buffer) => Said { buffer: Some(Hex(buffer)), ..said },
            Payload::Handle(handle) => Said { handle: Some(handle), ..said },
            Payload::PtrCookie(ptr, cookie) => Said { ptr: Some(Hex(ptr)), cookie: Some(Hex(cookie)), ..said },
            Payload::HandleCookie(handle, cookie) => Said { handle: Some(handle), cookie: Some(Hex(cookie)), ..said },
            Payload::Cookie(cookie) => Said { cookie: Some(Hex(cookie)), ..said },
        }
    }

    fn record(said: Said, code: u32, record: &Record) -> Said {
        let is_call = matches!(code, BC_TRANSACTION | BR_TRANSACTION);
        let is_read = code >> 8 & 0xff == u32::from(b'r');
        let Record { code, flags, data_size, offsets_size, .. } = *record;
        Said {
            handle: (is_call && !is_read).then_some(record.handle()),
            ptr: (is_call && is_read).then_some(Hex(record.target)),
            cookie: is_call.then_some(Hex(record.cookie)),
            record: Some(SaidRecord { code, flags, data_size, offsets_size }),
            sender_pid: is_read.then_some(record.sender_pid),
            sender_euid: is_read.then_some(record.sender_euid),
            buffer: is_read.then_some(Hex(record.buffer)),
            ..said
        }
    }
}

#[derive(Default, Serialize)]
struct Answered {
    name: &'static str,
    #[serde(skip_serializing_if = "Option::is_none")]
    note: Option<String>,
    #[serde(skip_serializing_if = "Option::is_none")]
    cause: Option<String>,
    #[serde(skip_serializing_if = "Option::is_none")]
    fault: Option<String>,
    #[serde(skip_serializing_if = "Option::is_none")]
    bytes: Option<usize>,
    #[serde(skip_serializing_if = "Option::is_none")]
    returns: Option<Vec<Returned>>,
}

#[derive(Serialize)]
struct Returned {
    #[serde(flatten)]
    said: Said,
    #[serde(skip_serializing_if = "Option::is_none")]
    about: Option<Origin>,
    /// How many nanoseconds after the call was made.
    #[serde(skip_serializing_if = "Option::is_none")]
    age: Option<u64>,
}

/// The system's thread that sits on a seat, as it is printed.
#[derive(Serialize)]
pub struct ToldPerson {
    pid: u32,
    tid: Option<u32>,
    comm: String,
}

impl ToldPerson {
    pub fn new(person: &Person) -> ToldPerson {
        ToldPerson { pid: person.pid, tid: person.tid, comm: person.comm.to_string() }
    }

    /// The words for it that stand behind a seat of this process.
    pub fn words(&self, process: u32) -> String {
        person_words(self.pid, self.tid, &self.comm, Some(process))
    }
}

/// What a return is about.
#[derive(Serialize)]
struct Origin {
    #[serde(skip_serializing_if = "Option::is_none")]
    place: Option<u64>,
    #[serde(skip_serializing_if = "Option::is_none")]
    pid: Option<u32>,
    #[serde(skip_serializing_if = "Option::is_none")]
    seat: Option<u32>,
    #[serde(skip_serializing_if = "Option::is_none")]
    answers: Option<u64>,
    #[serde(skip_serializing_if = "Option::is_none")]
    object: Option<Named>,
}

#[derive(Serialize)]
struct Named {
    object: Word<ObjectId>,
    owner: Option<u32>,
    called: Option<String>,
}

fn object(space: &Space, id: ObjectId) -> Named {
    Named {
        object: Word(id),
        owner: space.object(id).map(|it| it.1.owner_pid),
        called: space.name_of(id).map(String::from),
    }
}

fn origin(space: &Space, about: &About) -> Option<Origin> {
    let none = Origin { place: None, pid: None, seat: None, answers: None, object: None };
    Some(match *about {
        About::Nothing => return None,
        About::Sent(Sent { made, pid, seat, target, answers, .. }) => Origin {
            place: Some(made),
            pid: Some(pid),
            seat: Some(seat),
            answers,
            object: target.map(|it| object(space, it)),
        },
        About::Call(place) => Origin { place: Some(place), ..none },
        About::Object(id) => Origin { object: Some(object(space, id)), ..none },
        About::Death(made, id) => Origin { place: Some(made), object: Some(object(space, id)), ..none },
    })
}

fn answered(space: &Space, answer: &Answer<'_>, facts: &Facts) -> Answered {
    let named = |name| Answered { name, ..Answered::default() };
    match answer {
        Answer::Opened => named("opened"),
        Answer::Set => named("set"),
        Answer::Exited => named("exited"),
        Answer::Accepted => named("accepted"),
        Answer::Refused(it) => match it.kind {
            Kind::Note => Answered { note: Some(it.name()), ..named("noted") },
            Kind::Cause => Answered { cause: Some(it.name()), ..named("stopped") },
            Kind::Fault => Answered { fault: Some(it.name()), ..named("refused") },
        },
        Answer::Got { stream, .. } => {
            let about = |index: usize| facts.about.get(index).and_then(|it| origin(space, it));
            let age = |index: usize| facts.ages.get(index).copied().flatten();
            let returned = |(index, it): (usize, Message)| Returned {
                said: Said::message(&it),
                about: about(index),
                age: age(index),
            };
            let returns = Returns(stream).flatten().enumerate().map(returned).collect();
            Answered { bytes: Some(stream.len()), returns: Some(returns), ..named("got") }
        }
    }
}

#[derive(Serialize)]
struct ToldParcel<'a> {
    data: Bytes<'a>,
    #[serde(skip_serializing_if = "Option::is_none")]
    interface: Option<String>,
    #[serde(skip_serializing_if = "Vec::is_empty")]
    texts: Vec<String>,
    #[serde(skip_serializing_if = "Vec::is_empty")]
    objects: Vec<ToldObject>,
}

#[derive(Serialize)]
struct ToldObject {
    at: u64,
    kind: Option<&'static str>,
    #[serde(skip_serializing_if = "Option::is_none")]
    handle: Option<u32>,
    #[serde(skip_serializing_if = "Option::is_none")]
    ptr: Option<Hex>,
    #[serde(skip_serializing_if = "Option::is_none")]
    cookie: Option<Hex>,
    #[serde(skip_serializing_if = "Option::is_none")]
    is: Option<Named>,
    #[serde(skip_serializing_if = "Option::is_none")]
    sender_handle: Option<u32>,
    #[serde(skip_serializing_if = "Option::is_none")]
    receiver_handle: Option<u32>,
}

fn told_parcel<'a>(parcel: &Parcel<'a>, space: &Space, facts: &Facts, most: usize) -> ToldParcel<'a> {
    let token = parcel::token(parcel.data);
    let from = token.as_ref().map_or(0, |it| it.end);
    let texts = parcel::texts(parcel.data, from, &spans(parcel));
    let objects = parcel.objects().enumerate().map(|(index, (at, flat))| {
        let known = facts.carried.get(index).copied().flatten();
        let by_ptr = flat.filter(|it| !it.kind.is_handle());
        ToldObject {
            at,
            kind: flat.map(|it| it.kind.name()),
            handle: flat.filter(|it| it.kind.is_handle()).map(|it| it.binder as u32),
            ptr: by_ptr.map(|it| Hex(it.binder)),
            cookie: by_ptr.map(|it| Hex(it.cookie)),
            is: known.map(|it| object(space, it.object)),
            sender_handle: known.and_then(|it| it.sender),
            receiver_handle: known.and_then(|it| it.receiver),
        }
    });
    ToldParcel {
        data: Bytes(&parcel.data[..parcel.data.len().min(most)]),
        interface: token.map(|it| it.text),
        texts: texts.into_iter().map(|it| it.text).collect(),
        objects: objects.collect(),
    }
}

#[derive(Serialize)]
struct Told<'a> {
    place: u64,
    #[serde(skip_serializing_if = "Option::is_none")]
    time: Option<String>,
    seat: u32,
    pid: Option<u32>,
    #[serde(skip_serializing_if = "Option::is_none")]
    thread: Option<ToldPerson>,
    step: Said,
    answer: Answered,
    #[serde(skip_serializing_if = "Option::is_none")]
    object: Option<Named>,
    #[serde(skip_serializing_if = "Option::is_none")]
    receiver: Option<u32>,
    #[serde(skip_serializing_if = "Option::is_none")]
    answers: Option<u64>,
    #[serde(skip_serializing_if = "Option::is_none")]
    parcel: Option<ToldParcel<'a>>,
    /// Of an entry that doesn't follow: the answer by the rules, and where what was read differs from that.
    #[serde(skip_serializing_if = "Option::is_none")]
    given: Option<Option<Answered>>,
    #[serde(skip_serializing_if = "BTreeMap::is_empty")]
    differ: BTreeMap<&'static str, usize>,
}

/// One entry on one line; at most so many bytes of its parcel.
pub fn put_entry(
    to: &mut Vec<u8>,
    most: usize,
    entry: &Entry<'_>,
    space: &Space,
    facts: &Facts,
) -> serde_json::Result<()> {
    let parcel = match (&entry.step, &entry.answer) {
        (Step::Command { parcel, .. }, _) => *parcel,
        (_, Answer::Got { parcel, .. }) => Some(*parcel),
        _ => None,
    };
    let parcel = parcel.filter(|it| !it.data.is_empty() || !it.offsets.is_empty());
    let given = facts.given.as_ref();
    let told = Told {
        place: entry.place,
        time: facts.time.map(Moment::universal),
        seat: entry.seat,
        pid: facts.pid,
        thread: facts.person.as_ref().map(ToldPerson::new),
        step: Said::request(&entry.step),
        answer: answered(space, &entry.answer, facts),
        object: facts.object.map(|it| object(space, it)),
        receiver: facts.receiver,
        answers: facts.answers,
        parcel: parcel.map(|it| told_parcel(&it, space, facts, most)),
        given: given.map(|it| it.answer().map(|it| answered(space, &it, &Facts::default()))),
        differ: given.map_or_else(BTreeMap::new, |it| it.differences(&entry.answer).into_iter().collect()),
    };
    serde_json::to_writer(&mut *to, &told)?;
    to.push(b'\n');
    Ok(())
}
