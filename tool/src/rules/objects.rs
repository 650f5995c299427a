// SPDX-License-Identifier: Apache-2.0 OR MIT
//! Objects, the names that lead to them, and what their owners are owed.
use super::*;
use crate::codes::*;
use crate::record::Kind;

impl Space {
    pub(super) fn add_object(&mut self, object: ObjectId, cookie: u64) {
        let made = self.new_thing();
        let new = Object {
            cookie,
            owner_pid: self.processes.get(object.0).map_or(0, |it| it.pid),
            owner_lives: true,
            told: [false; 2],
            handshake: [false; 2],
            local: [0; 2],
            held: [0; 2],
            names: Vec::new(),
            strong_names: 0,
            notice: None,
            lost_notice: None,
            turns: VecDeque::new(),
            made,
            up: Past::default(),
            down: Past::default(),
            turned: Past::default(),
            untold: By::default(),
        };
        self.objects.insert(object, new);
        self.remember_object(object, made);
    }

    fn remove_object(&mut self, object: ObjectId) {
        self.take_back(object);
        if let Some(it) = self.objects.remove(object) {
            self.forget_object(it.made);
        }
    }

    pub(super) fn touch(&mut self, object: ObjectId) {
        self.touched.push(object);
    }

    // ------------------------------------------------------------ names

    pub fn name(&self, process: ProcessId, handle: u32) -> Option<&Name> {
        self.processes.get(process)?.names.get(handle)
    }

    pub(super) fn name_mut(&mut self, process: ProcessId, handle: u32) -> Option<&mut Name> {
        self.processes.get_mut(process)?.names.get_mut(handle)
    }

    pub fn handle_of(&self, process: ProcessId, object: ObjectId) -> Option<u32> {
        let names = &self.objects.get(object)?.names;
        names.iter().find(|it| it.0 == process).map(|it| it.1)
    }

    /// The number of a process's name for another's object, made if there is none, with the least that is free.
    pub(super) fn name_for(&mut self, process: ProcessId, object: ObjectId) -> u32 {
        if let Some(handle) = self.handle_of(process, object) {
            return handle;
        }
        let by = By(Some(self.current));
        let least = if self.manager == Some(object) { 0 } else { 1 };
        let names = match self.processes.get_mut(process) {
            Some(it) => &mut it.names,
            None => return 0,
        };
        let handle =
            names.keys().skip_while(|it| *it < least).fold(least, |free, it| if it == free { free + 1 } else { free });
        names.insert(handle, Name { object, asked: [0; 2], carried: [0; 2], death: None, by, down: Past::default() });
        if let Some(it) = self.objects.get_mut(object) {
            it.names.push((process, handle));
            // Who else has named it first is of no account.
            it.names.sort_unstable();
        }
        handle
    }

    /// One reference more for a name; `sender` has sent the object, which is its own.
    pub(super) fn count_up(
        &mut self,
        process: ProcessId,
        handle: u32,
        strength: usize,
        ground: Ground,
        sender: Option<Seat>,
    ) {
        let counts_once = self.does(Way::Counts);
        let (is_first, object) = match self.name_mut(process, handle) {
            Some(name) => {
                let is_first = name.count(strength) == 0;
                match ground {
                    Ground::Carried if !counts_once => name.carried[strength] += 1,
                    _ => name.asked[strength] += 1,
                }
                (is_first, name.object)
            }
            None => return,
        };
        let by = By(Some(self.current));
        if let Some(it) = self.objects.get_mut(object) {
            it.strong_names += u32::from(is_first && strength == STRONG);
            it.up.add(by);
        }
        self.touch(object);
        if let (true, Some(seat), true) = (is_first, sender, self.does(Way::Notices)) {
            self.notice_of_sending(seat, object, strength);
        }
    }

    pub(super) fn count_down(&mut self, process: ProcessId, handle: u32, strength: usize, ground: Ground) {
        let (counts_once, by) = (self.does(Way::Counts), By(Some(self.current)));
        let (strong, weak, object) = match self.name_mut(process, handle) {
            Some(name) => {
                name.down.add(by);
                let counts = match ground {
                    Ground::Carried if !counts_once => &mut name.carried,
                    _ => &mut name.asked,
                };
                counts[strength] = counts[strength].saturating_sub(1);
                (name.count(STRONG), name.count(WEAK), name.object)
            }
            None => return,
        };
        if strength == STRONG && strong == 0 {
            self.forget_strong_name(object);
            self.lost(object, STRONG);
        }
        self.touch(object);
        if strong > 0 || weak > 0 {
            return;
        }
        if self.does(Way::Released) && strength == STRONG {
            let seat = (self.current >> 32) as Seat;
            self.process_mut(process, |it| it.unnamed.push((seat, handle)));
        } else {
            self.end_name(process, handle);
        }
    }

    fn forget_strong_name(&mut self, object: ObjectId) {
        let by = By(Some(self.current));
        if let Some(it) = self.objects.get_mut(object) {
            it.strong_names = it.strong_names.saturating_sub(1);
            it.down.add(by);
        }
    }

    /// The other half of what a seat's command has released: names go to which nothing leads any more (`Way::Released`).
    pub fn finish_release(&mut self, seat: Seat, process: ProcessId) {
        self.release_held(seat);
        let its = match self.processes.get_mut(process) {
            Some(it) if it.unnamed.iter().any(|it| it.0 == seat) => it,
            _ => return self.follow(),
        };
        let handles: Vec<u32> = its.unnamed.iter().filter(|it| it.0 == seat).map(|it| it.1).collect();
        its.unnamed.retain(|it| it.0 != seat);
        for handle in handles {
            if self.name(process, handle).map_or(false, |it| it.count(STRONG) + it.count(WEAK) == 0) {
                self.end_name(process, handle);
            }
        }
        self.follow();
    }

    /// A name goes, and the notification on it that isn't cleared.
    pub(super) fn end_name(&mut self, process: ProcessId, handle: u32) {
        let by = By(Some(self.current));
        let gone = self.processes.get_mut(process).and_then(|it| {
            let name = it.names.remove(handle)?;
            let mut down = name.down;
            down.add(by);
            it.freed.insert(handle, down);
            Some(name)
        });
        let name = match gone {
            Some(name) => name,
            None => return,
        };
        self.remember_name(process, handle, &name);
        if name.count(STRONG) > 0 {
            self.forget_strong_name(name.object);
            self.lost(name.object, STRONG);
        }
        if let Some(it) = self.objects.get_mut(name.object) {
            it.names.retain(|it| it.0 != process);
            it.down.add(by);
        }
        self.touch(name.object);
        if let Some(number) = name.death {
            self.end_death(process, number);
        }
        self.lost(name.object, WEAK);
    }

    pub(super) fn local_down(&mut self, object: ObjectId, strength: usize) {
        let by = By(Some(self.current));
        if let Some(it) = self.objects.get_mut(object) {
            it.local[strength] = it.local[strength].saturating_sub(1);
            it.down.add(by);
        }
        self.touch(object);
        self.lost(object, strength);
    }

    /// What a transaction or reply that begins holds until its objects have their numbers: its target strongly, its objects weakly.
    pub fn hold(&mut self, seat: Seat, objects: Vec<(ObjectId, usize)>) {
        for (object, strength) in &objects {
            if let Some(it) = self.objects.get_mut(*object) {
                it.held[*strength] += 1;
            }
        }
        if let Some(it) = self.threads.get_mut(seat) {
            it.held = objects;
        }
    }

    /// Lets go of what was held so.
    pub(super) fn release_held(&mut self, seat: Seat) {
        let held = self.threads.get_mut(seat).map_or(Vec::new(), |it| std::mem::take(&mut it.held));
        for (object, strength) in &held {
            if let Some(it) = self.objects.get_mut(*object) {
                it.held[*strength] = it.held[*strength].saturating_sub(1);
            }
        }
        for (object, strength) in held {
            self.lost(object, strength);
            self.touch(object);
        }
    }

    // ------------------------------------------------------------ Notices

    /// The Notice of an object goes, if one stands.
    pub(super) fn take_back(&mut self, object: ObjectId) {
        let list = match self.objects.get(object).and_then(|it| it.notice) {
            Some(list) => list,
            None => return,
        };
        self.unqueue(Item::Notice(object), list);
        if let Some(it) = self.objects.get_mut(object) {
            it.notice = None;
        }
    }

    pub(super) fn queue_notice(&mut self, object: ObjectId, list: List) {
        self.queue(Item::Notice(object), list);
        if let Some(it) = self.objects.get_mut(object) {
            it.notice = Some(list);
        }
    }

    /// The driver makes a Notice where the first count of a name comes about by the owner's sending.
    fn notice_of_sending(&mut self, sender: Seat, object: ObjectId, strength: usize) {
        let (told, has_notice) = match self.objects.get(object) {
            Some(it) => (it.told, it.notice.is_some()),
            None => return,
        };
        if strength == STRONG && !told[STRONG] {
            self.take_back(object);
            self.queue_notice(object, List::Thread(sender));
        } else if strength == WEAK && !told[WEAK] && !has_notice {
            self.queue_notice(object, List::Thread(sender));
        }
    }

    /// The driver makes a Notice, or lets an object go, where its last count of a strength goes.
    pub(super) fn lost(&mut self, object: ObjectId, strength: usize) {
        if !self.does(Way::Notices) {
            return;
        }
        let it = match self.objects.get(object) {
            Some(it) => it,
            None => return,
        };
        if if strength == STRONG { it.is_strong() } else { it.is_weakly_held() } {
            return;
        }
        if it.owner_lives && (it.told[WEAK] || it.told[STRONG]) {
            if it.notice.is_none() {
                self.queue_notice(object, List::Process(object.0));
                self.wake(object.0);
            }
        } else if !it.is_held() {
            self.remove_object(object);
        }
    }

    /// By the rules a sender's Notices come on its thread's list, and a BINDER makes one anew that stands.
    pub(super) fn own_notices(&mut self, seat: Seat, process: ProcessId, found: &[(Kind, ObjectId)]) {
        if self.does(Way::Notices) {
            return;
        }
        for (at, (_, object)) in found.iter().enumerate() {
            if object.0 != process || found[..at].iter().any(|it| it.1 == *object) {
                continue;
            }
            let is_sent = found.contains(&(Kind::Binder, *object));
            if is_sent && self.objects.get(*object).map_or(false, |it| !it.told[STRONG]) {
                self.take_back(*object);
            }
            if self.objects.get(*object).map_or(false, |it| it.told != it.holds() && it.notice.is_none()) {
                self.queue_notice(*object, List::Thread(seat));
            }
        }
    }

    pub(super) fn follow_object(&mut self, object: ObjectId) {
        let it = match self.objects.get(object) {
            Some(it) => it,
            None => return,
        };
        if !it.is_held() && !(it.owner_lives && (it.told[WEAK] || it.told[STRONG])) {
            return self.remove_object(object);
        }
        let is_wrong = it.owner_lives && it.told != it.holds();
        let is_lost = it.lost_notice == Some(it.holds());
        let has_notice = it.notice.is_some();
        if has_notice && !is_wrong {
            self.take_back(object);
        } else if is_wrong && !has_notice && !is_lost {
            self.queue_notice(object, List::Process(object.0));
            self.wake(object.0);
        }
    }

    /// What a Notice reads as; from then on the owner was told what is so.
    pub(super) fn read_notice(&mut self, object: ObjectId, stream: &mut Vec<u8>) {
        let (goes_by_events, by) = (self.does(Way::Notices), By(Some(self.current)));
        let it = match self.objects.get_mut(object) {
            Some(it) => it,
            None => return,
        };
        let [is_held, is_strong] = it.holds();
        let is_new = [is_held && !it.told[WEAK], is_strong && !it.told[STRONG]];
        let told = [
            (BR_INCREFS, is_new[WEAK]),
            (BR_ACQUIRE, is_new[STRONG]),
            (BR_RELEASE, it.told[STRONG] && !is_strong),
            (BR_DECREFS, it.told[WEAK] && !is_held),
        ];
        for strength in [WEAK, STRONG] {
            if is_new[strength] {
                it.handshake[strength] = true;
                it.local[strength] += 1;
            }
        }
        if it.told[STRONG] && !is_strong || it.told[WEAK] && !is_held {
            it.untold = by;
        }
        it.told = [is_held, is_strong];
        it.notice = None;
        let cookie = it.cookie;
        for (code, _) in told.iter().filter(|it| it.1) {
            stream.extend(code.to_le_bytes());
            stream.extend(object.1.to_le_bytes());
            stream.extend(cookie.to_le_bytes());
        }
        if !is_held && goes_by_events {
            self.remove_object(object);
        }
        self.touch(object);
    }

    // ------------------------------------------------------------ references asked for

    /// BC_INCREFS and BC_ACQUIRE.
    pub(super) fn ask(&mut self, process: ProcessId, handle: u32, strength: usize) -> Told {
        let object = match self.manager {
            Some(object) if handle == 0 => {
                if object.0 == process {
                    return if self.does(Way::Own0) { Told::Invalid } else { Told::Noted(4) };
                }
                object
            }
            _ => match self.name(process, handle) {
                Some(name) => {
                    let only_own = self.does(Way::WeakAcquire);
                    let is_strong = if only_own {
                        name.count(STRONG) > 0
                    } else {
                        self.objects.get(name.object).map_or(false, Object::is_strong)
                    };
                    if strength == STRONG && !is_strong {
                        return Told::Noted(3);
                    }
                    name.object
                }
                None => return Told::Noted(1),
            },
        };
        let handle = self.name_for(process, object);
        self.count_up(process, handle, strength, Ground::Asked, None);
        Told::Accepted
    }

    /// BC_DECREFS and BC_RELEASE.
    pub(super) fn drop_asked(&mut self, process: ProcessId, handle: u32, strength: usize) -> Told {
        match self.name(process, handle).map(|it| it.asked[strength]) {
            None => return Told::Noted(1),
            Some(0) => return Told::Noted(2),
            Some(_) => {}
        }
        self.count_down(process, handle, strength, Ground::Asked);
        Told::Accepted
    }

    /// BC_INCREFS_DONE and BC_ACQUIRE_DONE.
    pub(super) fn acknowledge(&mut self, process: ProcessId, ptr: u64, cookie: u64, strength: usize) -> Told {
        let object = (process, ptr);
        let (is_it, owes) = match self.objects.get(object) {
            Some(it) => (it.cookie == cookie, it.handshake[strength]),
            None => return Told::Noted(7),
        };
        if !is_it || !owes {
            self.lost(object, WEAK);
            return Told::Noted(if is_it { 8 } else { 7 });
        }
        if let Some(it) = self.objects.get_mut(object) {
            it.handshake[strength] = false;
        }
        self.local_down(object, strength);
        self.lost(object, WEAK);
        Told::Accepted
    }
}
