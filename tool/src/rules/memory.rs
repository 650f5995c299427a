// SPDX-License-Identifier: Apache-2.0 OR MIT
//! What is remembered of the past beside what answers depend on: who follows a journal asks for it.
use super::*;
use std::collections::HashMap;
use std::fmt;
use std::str::FromStr;

/// What tells no two spaces apart.
#[derive(Clone, Debug, Default, Serialize, Deserialize)]
pub struct Aside<T>(pub T);

impl<T> PartialEq for Aside<T> {
    fn eq(&self, _: &Aside<T>) -> bool {
        true
    }
}

impl<T> Eq for Aside<T> {}

/// What an object is called for people: the place of the step that made it, and its number among those of that step. No other
/// ever has the same, while an owner may have one object after another with one ptr.
#[derive(Clone, Copy, Debug, PartialEq, Eq, PartialOrd, Ord, Hash, Serialize, Deserialize)]
pub struct Id {
    pub place: u64,
    pub index: u32,
}

impl Id {
    pub fn new(made: Made) -> Id {
        Id { place: made.0.saturating_sub(1), index: made.1.saturating_sub(1) }
    }
}

impl fmt::Display for Id {
    fn fmt(&self, f: &mut fmt::Formatter<'_>) -> fmt::Result {
        write!(f, "{}.{}", self.place, self.index)
    }
}

impl FromStr for Id {
    type Err = String;

    fn from_str(word: &str) -> Result<Id, String> {
        let numbers = word.split_once('.').and_then(|(place, index)| Some((place.parse().ok()?, index.parse().ok()?)));
        let (place, index) = numbers.ok_or("an object is PLACE.INDEX, as `3.0`: what `state` prints")?;
        Ok(Id { place, index })
    }
}

/// What parcels have told of an object: what its calls name, and what it was registered as.
#[derive(Clone, Debug, Default, Serialize, Deserialize)]
pub struct Called {
    pub interface: Option<String>,
    pub service: Option<String>,
}

/// A name that went, between which steps it stood.
#[derive(Clone, Copy, Debug, PartialEq, Eq, Serialize, Deserialize)]
pub struct Gone {
    pub object: Id,
    pub since: u64,
    pub at: u64,
}

/// Of a process the latest name of each number that went, and by the pointer of a buffer where the latest one was freed.
#[derive(Clone, Debug, Default, Serialize, Deserialize)]
struct OfProcess {
    gone: HashMap<u32, Gone>,
    freed: HashMap<u64, u64>,
}

#[derive(Clone, Debug, Default, Serialize, Deserialize)]
pub struct Memory {
    objects: HashMap<Id, ObjectId>,
    called: HashMap<Id, Called>,
    processes: HashMap<ProcessId, OfProcess>,
}

impl Space {
    /// One that remembers, and keeps no parcels' bytes, which the journal has.
    pub fn remembering(ways: Ways) -> Space {
        let mut space = Space::new(ways);
        space.memory.0 = Some(Box::default());
        space
    }

    pub(super) fn keeps_bytes(&self) -> bool {
        self.memory.0.is_none()
    }

    pub(super) fn remember_object(&mut self, object: ObjectId, made: Made) {
        if let Some(memory) = &mut self.memory.0 {
            memory.objects.insert(Id::new(made), object);
        }
    }

    pub(super) fn forget_object(&mut self, made: Made) {
        if let Some(memory) = &mut self.memory.0 {
            memory.objects.remove(&Id::new(made));
            memory.called.remove(&Id::new(made));
        }
    }

    pub(super) fn remember_name(&mut self, process: ProcessId, handle: u32, name: &Name) {
        let (object, at) = (self.id_of(name.object), self.current);
        if let (Some(memory), Some(object)) = (&mut self.memory.0, object) {
            let gone = Gone { object, since: name.by.0.unwrap_or(0), at };
            memory.processes.entry(process).or_default().gone.insert(handle, gone);
        }
    }

    pub fn remember_freed(&mut self, process: ProcessId, pointer: u64) {
        let at = self.current;
        if let Some(memory) = &mut self.memory.0 {
            memory.processes.entry(process).or_default().freed.insert(pointer, at);
        }
    }

    pub(super) fn forget_process(&mut self, process: ProcessId) {
        if let Some(memory) = &mut self.memory.0 {
            memory.processes.remove(&process);
        }
    }

    // ------------------------------------------------------------ what is told of it

    /// What an object that there is is called for people.
    pub fn id_of(&self, object: ObjectId) -> Option<Id> {
        self.objects.get(object).map(|it| Id::new(it.made))
    }

    /// The object that is called so, if it is still there.
    pub fn object(&self, id: Id) -> Option<(ObjectId, &Object)> {
        let object = *self.memory.0.as_ref()?.objects.get(&id)?;
        Some((object, self.objects.get(object)?))
    }

    pub fn called(&self, id: Id) -> Option<&Called> {
        self.memory.0.as_ref()?.called.get(&id)
    }

    pub fn called_mut(&mut self, id: Id) -> Option<&mut Called> {
        Some(self.memory.0.as_mut()?.called.entry(id).or_default())
    }

    /// The latest name of that number that went.
    pub fn gone(&self, process: ProcessId, handle: u32) -> Option<Gone> {
        self.memory.0.as_ref()?.processes.get(&process)?.gone.get(&handle).copied()
    }

    pub fn freed(&self, process: ProcessId, pointer: u64) -> Option<u64> {
        self.memory.0.as_ref()?.processes.get(&process)?.freed.get(&pointer).copied()
    }
}

#[cfg(test)]
mod tests {
    use super::*;

    #[test]
    fn an_object_is_read_as_it_is_written() {
        let object = Id { place: 12, index: 3 };
        assert_eq!(object.to_string().parse(), Ok(object));
        for word in ["", "12", "12.", ".3", "12.3.4", "a.b", "-1.0"] {
            assert!(word.parse::<Id>().is_err(), "{word}");
        }
    }
}
