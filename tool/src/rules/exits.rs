// SPDX-License-Identifier: Apache-2.0 OR MIT
//! Threads and processes that end.
use super::*;

impl Space {
    pub fn exit_thread(&mut self, seat: Seat) {
        self.end_thread(seat);
        self.follow();
    }

    /// A thread's frames lose it, and its todo list goes.
    fn end_thread(&mut self, seat: Seat) {
        self.end_wait(seat);
        let thread = match self.threads.remove(seat) {
            Some(thread) => thread,
            None => return,
        };
        let ids: Vec<FrameId> = self.frames.keys().collect();
        for id in ids {
            if let Some(frame) = self.frames.get_mut(id) {
                frame.caller = frame.caller.filter(|it| *it != seat);
                if frame.server == Server::Seat(seat) {
                    frame.server = Server::Gone;
                    self.orphans += 1;
                }
            }
        }
        for item in thread.todo.iter() {
            self.drop_item(item.item);
        }
    }

    /// What becomes of an item that nobody will read from a thread's list any more.
    fn drop_item(&mut self, item: Item) {
        match item {
            Item::Notice(object) => {
                if let Some(it) = self.objects.get_mut(object) {
                    it.notice = None;
                }
                self.leave_notice(object);
            }
            Item::Call(buffer) | Item::Reply(buffer) => {
                if let Some(frame) = self.buffer(buffer).and_then(|it| it.frame) {
                    self.lose_server(frame);
                }
                if !self.does(Way::Kept) {
                    self.end_buffer(buffer);
                }
            }
            _ => {}
        }
    }

    fn lose_server(&mut self, frame: FrameId) {
        if let Some(frame) = self.frames.get_mut(frame) {
            self.orphans += u32::from(frame.server != Server::Gone);
            frame.server = Server::Gone;
        }
    }

    /// The driver forgets a Notice that stood on the list of a thread that has ended, until something changes.
    fn leave_notice(&mut self, object: ObjectId) {
        let (forgets, goes_by_events) = (self.does(Way::Lost), self.does(Way::Notices));
        let it = match self.objects.get_mut(object) {
            Some(it) => it,
            None => return,
        };
        if forgets {
            it.lost_notice = Some(it.holds());
        } else if goes_by_events && it.owner_lives && it.told != it.holds() {
            self.queue_notice(object, List::Process(object.0));
        }
        self.touch(object);
    }

    pub fn exit_process(&mut self, process: ProcessId) {
        self.end_threads(process);
        self.end_objects(process);
        self.end_names(process);
        self.end_rest(process);
        self.follow();
    }

    /// The same in parts (`Way::Ended`): first its threads, from when on nobody can call it; then its objects, of which deaths are told;
    /// then its names, and last what is there for it to read.
    pub fn exit_threads(&mut self, process: ProcessId) {
        self.process_mut(process, |it| it.is_ending = true);
        self.end_threads(process);
        self.follow();
    }

    pub fn exit_objects(&mut self, process: ProcessId) {
        self.end_objects(process);
        self.follow();
    }

    pub fn exit_names(&mut self, process: ProcessId) {
        self.end_names(process);
        self.follow();
    }

    pub fn exit_rest(&mut self, process: ProcessId) {
        self.end_rest(process);
        self.follow();
    }

    fn end_threads(&mut self, process: ProcessId) {
        let seats: Vec<Seat> = self.threads.iter().filter(|it| it.1.process == process).map(|it| it.0).collect();
        for seat in seats {
            self.end_thread(seat);
        }
    }

    fn end_names(&mut self, process: ProcessId) {
        let handles: Vec<u32> = self.processes.get(process).map_or(Vec::new(), |it| it.names.keys().collect());
        for handle in handles {
            self.end_name(process, handle);
        }
    }

    /// Calls that nobody has read lose their server, and the process goes with its window.
    fn end_rest(&mut self, process: ProcessId) {
        let todo = self.processes.get(process).map_or(Todo::new(), |it| it.todo.clone());
        for item in &todo {
            if let Item::Call(buffer) = &item.item {
                if let Some(frame) = self.buffer(*buffer).and_then(|it| it.frame) {
                    self.lose_server(frame);
                }
            }
        }
        self.end_buffers(process);
        self.processes.remove(process);
        self.forget_process(process);
    }

    /// What the buffers of a window hold of others' objects has gone with the names.
    fn end_buffers(&mut self, process: ProcessId) {
        self.process_mut(process, |it| it.buffers = Table::default());
    }

    /// A process's objects are without an owner: who asked is told, in the order of asking, or by the driver in that of the ptrs.
    fn end_objects(&mut self, process: ProcessId) {
        if self.manager.map_or(false, |it| it.0 == process) {
            self.manager = None;
        }
        let own: Vec<ObjectId> = self.objects.keys().filter(|it| it.0 == process).collect();
        let mut asked = Vec::new();
        for object in &own {
            asked.extend(self.lose_owner(*object));
        }
        if !self.does(Way::Order) {
            let order = |it: &(ProcessId, u64)| {
                let deaths = &self.processes.get(it.0).map(|it| &it.deaths);
                (it.0, deaths.and_then(|all| all.iter().position(|death| death.number == it.1)))
            };
            asked.sort_by_key(order);
        }
        for (watcher, number) in asked {
            self.queue_death(watcher, number);
        }
        for object in own {
            self.lost(object, WEAK);
        }
    }

    /// An object's owner has ended: the notifications on it.
    fn lose_owner(&mut self, object: ObjectId) -> Vec<(ProcessId, u64)> {
        self.take_back(object);
        let names = match self.objects.get_mut(object) {
            Some(it) => {
                it.owner_lives = false;
                it.local = [0; 2];
                it.turns.clear();
                it.names.clone()
            }
            None => return Vec::new(),
        };
        self.touch(object);
        let death = |(process, handle): &(ProcessId, u32)| Some((*process, self.name(*process, *handle)?.death?));
        names.iter().filter_map(death).collect()
    }
}
