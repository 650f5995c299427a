// SPDX-License-Identifier: Apache-2.0 OR MIT
//! Death notifications.
use super::*;

impl Space {
    pub(super) fn death_mut(&mut self, process: ProcessId, number: u64) -> Option<&mut Death> {
        self.processes.get_mut(process)?.deaths.iter_mut().find(|it| it.number == number)
    }

    pub(super) fn queue_death(&mut self, process: ProcessId, number: u64) {
        if let Some(death) = self.death_mut(process, number) {
            death.phase = Phase::Queued;
            self.queue(Item::Death(number), List::Process(process));
            self.wake(process);
        }
    }

    pub(super) fn end_death(&mut self, process: ProcessId, number: u64) {
        self.unqueue(Item::Death(number), List::Process(process));
        self.process_mut(process, |it| {
            it.deaths.retain(|it| it.number != number);
            it.told.retain(|it| *it != number);
        });
    }

    fn owe_cleared(&mut self, seat: Seat, process: ProcessId, cookie: u64) {
        let has_entered = self.threads.get(seat).map_or(false, |it| it.has_entered);
        if self.does(Way::Cleared) && !has_entered {
            self.queue(Item::Cleared(cookie), List::Process(process));
            self.wake(process);
        } else {
            self.owe(seat, Item::Cleared(cookie), false);
        }
    }

    pub(super) fn ask_death(&mut self, process: ProcessId, handle: u32, cookie: u64) -> Told {
        let number = self.current;
        let target = match self.name_mut(process, handle) {
            None => return Told::Noted(1),
            Some(name) if name.death.is_some() => return Told::Noted(9),
            Some(name) => {
                name.death = Some(number);
                name.object
            }
        };
        let object = self.objects.get(target).map_or(Made::default(), |it| it.made);
        let death = Death { number, handle, object, cookie, phase: Phase::Armed, is_cleared: false };
        self.process_mut(process, |it| it.deaths.push(death));
        if !self.objects.get(target).map_or(false, |it| it.owner_lives) {
            self.queue_death(process, number);
        }
        Told::Accepted
    }

    pub(super) fn clear_death(&mut self, seat: Seat, process: ProcessId, handle: u32, cookie: u64) -> Told {
        let number = match self.name(process, handle) {
            None => return Told::Noted(1),
            Some(name) => name.death,
        };
        let death = number.and_then(|it| self.death_mut(process, it)).filter(|it| it.cookie == cookie);
        let (number, phase) = match death {
            Some(death) => (death.number, death.phase),
            None => return Told::Noted(10),
        };
        if let Some(name) = self.name_mut(process, handle) {
            name.death = None;
        }
        if matches!(phase, Phase::Armed | Phase::Done) {
            self.end_death(process, number);
            self.owe_cleared(seat, process, cookie);
        } else if let Some(death) = self.death_mut(process, number) {
            death.is_cleared = true;
        }
        Told::Accepted
    }

    /// The death that BC_DEAD_BINDER_DONE with a cookie means.
    pub fn told_death(&self, process: ProcessId, cookie: u64) -> Option<&Death> {
        let its = self.processes.get(process)?;
        let is_it = |death: &&Death| death.cookie == cookie && its.told.contains(&death.number);
        if self.does(Way::ToldOrder) {
            its.told.iter().filter_map(|number| its.deaths.iter().find(|it| it.number == *number)).find(is_it)
        } else {
            its.deaths.iter().find(is_it)
        }
    }

    pub(super) fn death_done(&mut self, seat: Seat, process: ProcessId, cookie: u64) -> Told {
        let (number, is_cleared) = match self.told_death(process, cookie) {
            Some(death) => (death.number, death.is_cleared),
            None => return Told::Noted(11),
        };
        self.process_mut(process, |it| it.told.retain(|it| *it != number));
        if let Some(death) = self.death_mut(process, number) {
            death.phase = Phase::Done;
        }
        if is_cleared {
            self.end_death(process, number);
            self.owe_cleared(seat, process, cookie);
        }
        Told::Accepted
    }
}
