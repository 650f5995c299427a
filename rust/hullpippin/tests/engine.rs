// SPDX-License-Identifier: Apache-2.0 OR MIT
//! Runs over the library: what this crate spells is what the engine reads, and the other way round.
use hullpippin::{
    call_of_reply, chain_of, turns_of, verdict_on, Answer, Cause, Command, Defers, Driver, Error, Fault, FlatObject, Kept, Live,
    Note, ObjectId, Outcome, Parcel, Request, Return, Seat, Signal, Stop, TodoList, TransactionData, Turn, Verdict, Why, Work, ONE_WAY,
};
use hullpippin_sys as sys;
use std::thread;

/// The text that the library has for a number of a kind.
fn text_of(kind: u32, number: u32) -> String {
    let mut room = [0; 64];
    // SAFETY: there is as much room as is said.
    let size = unsafe { sys::hullpippin_text_bytes(kind, number, room.as_mut_ptr(), room.len()) };
    String::from_utf8(room[..size].to_vec()).expect("a text")
}

#[test]
fn refusals_have_the_texts_of_the_library() {
    for it in Fault::ALL {
        assert_eq!(it.to_string(), text_of(sys::HULLPIPPIN_TEXT_FAULT, it.number()));
    }
    for it in Cause::ALL {
        assert_eq!(it.to_string(), text_of(sys::HULLPIPPIN_TEXT_CAUSE, it.number()));
    }
    for it in Note::ALL {
        assert_eq!(it.to_string(), text_of(sys::HULLPIPPIN_TEXT_NOTE, it.number()));
    }
}

fn returns(answer: Answer) -> Vec<Return> {
    answer.returns().map(|it| it.expect("a return")).collect()
}

/// A live engine whose seat 0 is the manager's, and seat 1 a client's.
fn introduced() -> Live {
    let mut live = Live::new(3).expect("an engine");
    for (seat, pid) in [(0, 100), (1, 200)] {
        assert_eq!(live.open(seat, pid, 1000 + pid, 65536).expect("a step").answer, Answer::Opened);
    }
    assert_eq!(live.manager(0).expect("a step").answer, Answer::Set);
    assert_eq!(live.command(0, &Command::EnterLooper).expect("a step").answer, wrote(4));
    live
}

fn wrote(consumed: u32) -> Answer {
    Answer::Wrote { consumed, notes: vec![], stop: None }
}

#[test]
fn every_command_is_one_that_the_engine_reads() {
    let record = TransactionData { target: 0, code: 1, flags: ONE_WAY, ..TransactionData::default() };
    let all = [
        (Command::Transaction(record), None, None),
        (Command::Reply(record), None, Some(Cause::NoCall)),
        (Command::FreeBuffer(1), Some(Note::NoSuchBuffer), None),
        (Command::Increfs(7), Some(Note::NoSuchNumber), None),
        (Command::Acquire(7), Some(Note::NoSuchNumber), None),
        (Command::Release(7), Some(Note::NoSuchNumber), None),
        (Command::Decrefs(7), Some(Note::NoSuchNumber), None),
        (Command::IncrefsDone(1, 2), Some(Note::NoSuchObject), None),
        (Command::AcquireDone(1, 2), Some(Note::NoSuchObject), None),
        (Command::EnterLooper, None, None),
        (Command::ExitLooper, None, None),
        (Command::RequestDeathNotification(7, 1), Some(Note::NoSuchNumber), None),
        (Command::ClearDeathNotification(7, 1), Some(Note::NoSuchNumber), None),
        (Command::DeadBinderDone(1), Some(Note::NoneTold), None),
    ];
    for (command, note, cause) in all {
        let mut live = introduced();
        let made = live.command(1, &command).unwrap_or_else(|error| panic!("{command}: {error}"));
        let notes = note.into_iter().map(|it| (0, it)).collect();
        let consumed = command.to_bytes().len() as u32;
        assert_eq!(made.answer, Answer::Wrote { consumed, notes, stop: cause.map(Stop::Cause) }, "{command}");
        let mut longer = command.to_bytes();
        longer.push(0);
        assert_eq!(live.command_bytes(1, &longer, &[], &[]), Err(Error::NoCommand), "{command}");
    }
}

#[test]
fn a_call_with_an_object_is_read_as_it_was_sent() {
    let mut live = introduced();
    let mut parcel = Parcel::from(&b"abc"[..]);
    parcel.push(FlatObject::binder(0x1000, 0x20));
    live.transact(1, 0, 9, 0, &parcel).expect("a step");
    let read = live.read(0, 256).expect("a step").answer;
    let Answer::Got { data, offsets, .. } = read.clone() else { panic!("{read:?}") };
    assert_eq!((&data[..3], &offsets[..]), (&b"abc"[..], &8u64.to_le_bytes()[..]));
    let object = FlatObject::from_bytes(&data[8..]).expect("an object");
    assert_eq!(object, FlatObject { flags: object.flags, ..FlatObject::handle(1) });
    let Some(Return::Transaction(call)) = returns(read).pop() else { panic!("no call") };
    assert_eq!(
        (call.code, call.sender_pid, call.sender_euid, call.data_size, call.offsets_size),
        (9, 200, 1200, 32, 8)
    );
    // The owner is told of its object, and reads the reply.
    live.reply(0, 0, 0, &Parcel::from(&b"yes"[..])).expect("a step");
    let told = returns(live.read(1, 256).expect("a step").answer);
    assert!(told.contains(&Return::Acquire(0x1000, 0x20)), "{told:?}");
    let reply = told.iter().chain(&returns(live.read(1, 256).expect("a step").answer)).find_map(|it| match it {
        Return::Reply(record) => Some(record.data_size),
        _ => None,
    });
    assert_eq!(reply, Some(3));
}

/// Of two threads of a process that wait each is woken for one of two calls, once.
#[test]
fn nobody_who_waits_is_forgotten() {
    let mut live = Live::bridge(4).expect("a bridge");
    for (seat, pid) in [(0, 100), (2, 200), (3, 300)] {
        live.open(seat, pid, 1000, 65536).expect("a step");
    }
    live.manager(0).expect("a step");
    live.attach(1, 100).expect("a step");
    for seat in [0, 1] {
        live.command(seat, &Command::EnterLooper).expect("a step");
        live.wait(seat, 256, Defers::Nothing).expect("it waits");
    }
    assert_eq!(live.settle(16), (None, false));
    for seat in [2, 3] {
        live.transact(seat, 0, 7, 0, &Parcel::new()).expect("a step");
    }
    let mut woken = Vec::new();
    while let (Some(signal), _) = live.settle(16) {
        let Signal::Read { seat, wakes: true, made: Ok(made) } = signal else { panic!("{signal:?}") };
        assert!(returns(made.answer).iter().any(|it| matches!(it, Return::Transaction(_))));
        woken.push(seat);
    }
    assert_eq!(woken, [1, 0]);
    assert_eq!(live.suspects(), 0);
    live.give_doorbell(2).expect("it has a doorbell");
    assert_eq!(live.settle(16), (Some(Signal::Bell { seat: 2, rings: true }), false));
    assert_eq!(live.attach(2, 100), Err(Error::Waiting));
    live.stop_waiting(2).expect("it stops");
    assert_eq!(live.wait(9, 256, Defers::Nothing), Err(Error::NoSuchSeat));
}

#[test]
fn a_death_is_told() {
    let mut live = introduced();
    let mut parcel = Parcel::new();
    parcel.push(FlatObject::binder(0x1000, 0x20));
    live.transact(1, 0, 9, ONE_WAY, &parcel).expect("a step");
    live.read(0, 256).expect("a step");
    live.command(0, &Command::Acquire(1)).expect("a step");
    live.command(0, &Command::RequestDeathNotification(1, 77)).expect("a step");
    live.exit_process(1).expect("a step");
    assert!(live.is_ready(0));
    assert!(returns(live.read(0, 256).expect("a step").answer).contains(&Return::DeadBinder(77)));
}

#[test]
fn notes_and_stops_are_told_by_their_names() {
    let mut driver = Driver::new(1).expect("a driver");
    let mut seat = driver.take_seat().expect("a seat");
    let refused = Outcome::Done { answer: Answer::Refused(Fault::NoProcess), from: 0, to: 1 };
    assert_eq!(seat.command(&Command::EnterLooper), Ok(refused));
    seat.open(100, 1000, 4096).expect("a call");
    let mut stream = Command::EnterLooper.to_bytes();
    Command::Release(5).spell(&mut stream);
    Command::FreeBuffer(9).spell(&mut stream);
    stream.extend([0xff; 4]);
    let answer = seat.write(&stream, &[]).expect("a call").answer().expect("an answer");
    let notes = vec![(1, Note::NoSuchNumber), (2, Note::NoSuchBuffer)];
    assert_eq!(answer, Answer::Wrote { consumed: 24, notes, stop: Some(Stop::Fault(Fault::UnknownCommand)) });
    assert_eq!(seat.open(1, 1, 4096).expect("a call").answer(), Some(Answer::Refused(Fault::HasProcess)));
}

#[test]
fn seats_keep_their_numbers() {
    let mut driver = Driver::new(3).expect("a driver");
    let [first, second] = [0, 1].map(|_| driver.take_seat().expect("a seat"));
    driver.return_seat(second).expect("its own");
    driver.return_seat(first).expect("its own");
    let mut seats = [0, 1, 2].map(|_| driver.take_seat().expect("a seat"));
    assert_eq!(driver.take_seat().err(), Some(Error::NoSeatLeft));
    assert_eq!(seats.each_ref().map(|seat| seat.number()), [2, 1, 0]);
    for (seat, pid) in seats.iter_mut().zip([1, 2, 3]) {
        seat.open(pid, 0, 4096).expect("a call");
    }
    // The call is the receiver's to read, its completion the sender's, in whatever seats they are.
    seats[0].manager().expect("a call");
    seats[0].command(&Command::EnterLooper).expect("a call");
    seats[1].transact(0, 1, ONE_WAY, &Parcel::new()).expect("a call");
    assert_eq!(seats.each_mut().map(|seat| seat.is_ready()), [true, true, false]);
    assert_eq!(seats[0].ready(), 0b110);
}

#[test]
fn what_is_refused_comes_back() {
    let (mut one, mut other) = (Driver::new(1).expect("a driver"), Driver::new(1).expect("a driver"));
    let seat = one.take_seat().expect("a seat");
    let Err(Kept { kept: seat, error }) = other.return_seat(seat) else { panic!("another driver takes it") };
    assert_eq!(error, Error::OtherDriver);
    let Err(Kept { kept: mut one, error }) = one.finish() else { panic!("it ends without its seat") };
    assert_eq!(error, Error::SeatsAway);
    one.return_seat(seat).expect("its own");
    assert!(one.finish().is_ok());
    assert_eq!(Driver::new(0).err(), Some(Error::SeatCount));
    assert_eq!(Live::new(65537).err(), Some(Error::SeatCount));
    assert_eq!(Live::new(1).expect("an engine").read(1, 256), Err(Error::NoSuchSeat));
}

#[test]
fn a_posted_request_waits() {
    let mut driver = Driver::new(2).expect("a driver");
    let (mut asks, mut serves) = (driver.take_seat().expect("a seat"), driver.take_seat().expect("a seat"));
    assert_eq!(asks.collect(), Err(Error::NotWaiting));
    let stream = Command::EnterLooper.to_bytes();
    for request in [
        Request::Open { pid: 5, euid: 6, window: 4096 },
        Request::Manager,
        Request::SetSpam { on: true },
        Request::Write { stream: &stream, area: &[] },
        Request::ExitProcess,
    ] {
        asks.post(request).expect("a post");
        assert_eq!(asks.open(1, 1, 4096), Err(Error::Waiting));
        assert_eq!(serves.serve(), Ok(1));
        assert!(!matches!(asks.collect().expect("an answer").answer(), None | Some(Answer::Refused(_))), "{request:?}");
    }
    for (request, fault) in [
        (Request::Attach { pid: 9 }, Fault::NoSuchPid),
        (Request::Read { limit: 256 }, Fault::NoProcess),
        (Request::ExitThread, Fault::NoProcess),
    ] {
        asks.post(request).expect("a post");
        assert_eq!(serves.serve(), Ok(1));
        assert_eq!(asks.collect().expect("an answer").answer(), Some(Answer::Refused(fault)));
    }
    asks.post(Request::Manager).expect("a post");
    assert_eq!(asks.withdraw(), Ok(Outcome::Back(Why::Withdrawn)));
}

#[test]
fn what_came_back_is_made_again() {
    let mut driver = Driver::new(1).expect("a driver");
    let mut seat = driver.take_seat().expect("a seat");
    assert_eq!(seat.again(), Err(Error::NothingBack));
    seat.post(Request::Open { pid: 5, euid: 6, window: 4096 }).expect("a post");
    assert_eq!(seat.again(), Err(Error::Waiting));
    assert_eq!(seat.withdraw(), Ok(Outcome::Back(Why::Withdrawn)));
    assert_eq!(seat.again().expect("a call").answer(), Some(Answer::Opened));
    assert_eq!(seat.again(), Err(Error::NothingBack));
}

/// Eight threads want the engine at once: each request of each is answered, and the history has just these.
#[test]
fn who_insists_is_answered() {
    const TIMES: usize = 200;
    let mut driver = Driver::new(8).expect("a driver");
    let seats: Vec<Seat> = (0..8).map(|_| driver.take_seat().expect("a seat")).collect();
    let asks = |mut seat: Seat| {
        let outcome = seat.insist(|seat| seat.open(100 + seat.number(), 1000, 4096)).expect("a call");
        assert_eq!(outcome.answer(), Some(Answer::Opened));
        for _ in 1..TIMES {
            let outcome = seat.insist(|seat| seat.read(256)).expect("a call");
            assert_eq!(outcome.answer(), Some(Answer::Refused(Fault::Again)));
        }
        seat
    };
    let threads: Vec<_> = seats.into_iter().map(|seat| thread::spawn(move || asks(seat))).collect();
    for seat in threads {
        driver.return_seat(seat.join().expect("no thread panics")).expect("the driver's own");
    }
    let journal = driver.finish().expect("all seats are back").journal().expect("a journal");
    assert_eq!(verdict_on(&journal), Ok(Verdict::Lawful(8 * TIMES)));
}

/// Eight threads hand over what they want, and whoever finds the engine free serves all of them: each is answered.
#[test]
fn who_hands_over_is_answered() {
    const TIMES: usize = 200;
    let mut driver = Driver::new(8).expect("a driver");
    let seats: Vec<Seat> = (0..8).map(|_| driver.take_seat().expect("a seat")).collect();
    let asks = |mut seat: Seat| {
        seat.post(Request::Open { pid: 100 + seat.number(), euid: 1000, window: 4096 }).expect("a post");
        assert_eq!(seat.awaited().expect("an answer").answer(), Some(Answer::Opened));
        for _ in 1..TIMES {
            seat.post(Request::Read { limit: 256 }).expect("a post");
            assert_eq!(seat.awaited().expect("an answer").answer(), Some(Answer::Refused(Fault::Again)));
        }
        assert_eq!(seat.awaited(), Err(Error::NotWaiting));
        for _ in 0..TIMES {
            let outcome = seat.hand_over(Request::Read { limit: 256 }).expect("an answer");
            assert_eq!(outcome.answer(), Some(Answer::Refused(Fault::Again)));
        }
        seat
    };
    let threads: Vec<_> = seats.into_iter().map(|seat| thread::spawn(move || asks(seat))).collect();
    for seat in threads {
        driver.return_seat(seat.join().expect("no thread panics")).expect("the driver's own");
    }
    let journal = driver.finish().expect("all seats are back").journal().expect("a journal");
    assert_eq!(verdict_on(&journal), Ok(Verdict::Lawful(16 * TIMES)));
}

/// The manager is sent an object one-way and keeps it; it is called and replies.
fn recorded() -> Vec<u8> {
    let mut driver = Driver::new(2).expect("a driver");
    let (mut manager, mut client) = (driver.take_seat().expect("a seat"), driver.take_seat().expect("a seat"));
    let mut sent = Parcel::from(&b""[..]);
    sent.push(FlatObject::binder(0x1000, 0x20));
    let none = Parcel::from(&b""[..]);
    manager.open(100, 1000, 65536).expect("step 0");
    manager.manager().expect("step 1");
    manager.command(&Command::EnterLooper).expect("step 2");
    client.open(200, 2000, 65536).expect("step 3");
    client.transact(0, 7, ONE_WAY, &sent).expect("step 4");
    client.read(256).expect("step 5");
    manager.read(256).expect("step 6");
    manager.command(&Command::Acquire(1)).expect("step 7");
    client.transact(0, 8, 0, &none).expect("step 8");
    manager.read(256).expect("step 9");
    manager.reply(0, 0, &none).expect("step 10");
    client.read(256).expect("step 11");
    driver.return_seat(manager).expect("its own");
    driver.return_seat(client).expect("its own");
    driver.finish().expect("all are back").journal().expect("a journal")
}

#[test]
fn certificates_tell_what_a_history_comes_to() {
    let journal = recorded();
    assert_eq!(verdict_on(&journal), Ok(Verdict::Lawful(12)));
    assert_eq!((chain_of(&journal, 100, 1), chain_of(&journal, 100, 2)), (Ok(vec![4]), Ok(vec![])));
    assert_eq!((call_of_reply(&journal, 11), call_of_reply(&journal, 6)), (Ok(Some(8)), Ok(None)));
    assert_eq!(turns_of(&journal, 1, 0), Ok(vec![Turn { made: 4, handed: Some(6), ended: None }]));
    assert_eq!(call_of_reply(&journal[1..], 11), Err(Error::NoJournal));
}

#[test]
fn a_changed_journal_is_unlawful() {
    let mut live = introduced();
    let mut journal = live.heading(1).expect("a heading");
    let place = live.exit_thread(1).expect("a step").place;
    assert_eq!((place, live.steps()), (4, 5));
    // An exit of a seat that has no process, where the history begins with it.
    journal.extend(live.entry().expect("an entry"));
    assert_eq!(verdict_on(&journal), Ok(Verdict::Unlawful(0)));
    assert_eq!(turns_of(&journal, 1, 0), Err(Error::Unlawful));
    assert_eq!(verdict_on(&journal[..journal.len() - 1]), Err(Error::NoJournal));
}

#[test]
fn what_the_history_has_come_to_can_be_looked_at() {
    let mut live = introduced();
    let mut parcel = Parcel::new();
    parcel.push(FlatObject::binder(0x1000, 0x20));
    assert_eq!(live.transact(1, 0, 7, ONE_WAY, &parcel).expect("a step").place, 4);
    let sent = ObjectId { place: 4, index: 0 };
    assert_eq!((live.named(100, 1), live.named(100, 2)), (Some(sent), None));
    assert_eq!(live.object(sent).map(|it| (it.owner, it.ptr, it.cookie)), Some((1, 0x1000, 0x20)));
    assert_eq!(live.carried(4), [sent]);
    let buffer = live.buffer(4).expect("a buffer");
    assert_eq!((buffer.receiver, buffer.sender, buffer.data), (0, 1, 24));
    assert_eq!(buffer.target, live.manager_object());
    assert_eq!(live.unread(TodoList::OfThread(1)), [Work::Notice(sent), Work::Complete { spam: false }]);
    assert_eq!(live.unread(TodoList::OfProcess(0)), [Work::Call(4)]);
    assert_eq!(live.thread(1).map(|it| (it.process, it.looping)), Some((1, false)));
    assert_eq!((live.innermost(0), live.death(4)), (None, None));
    assert_eq!(live.processes().collect::<Vec<_>>(), [0, 1]);
    assert_eq!((live.handles(100).collect::<Vec<_>>(), live.handles(200).next()), (vec![1], None));
    assert_eq!((live.buffers(0).collect::<Vec<_>>(), live.buffers(1).next()), (vec![4], None));
}

#[test]
fn whom_a_step_reached_is_told() {
    let mut live = introduced();
    let manager = live.thread(0).expect("a thread").process;
    assert_eq!(live.reached(), Ok(None)); // nothing was told before
    assert_eq!(live.reached(), Ok(Some(vec![])));
    live.transact(1, 0, 1, 0, &Parcel::new()).expect("a step");
    let mut lists = live.reached().expect("memory").expect("known lists");
    lists.sort_by_key(|list| matches!(list, TodoList::OfProcess(_)));
    assert_eq!(lists, [TodoList::OfThread(1), TodoList::OfProcess(manager)]);
    live.read(0, 256).expect("a step");
    assert_eq!(live.reached(), Ok(Some(vec![TodoList::OfProcess(manager)])));
    live.read(1, 256).expect("a step");
    assert_eq!(live.reached(), Ok(Some(vec![TodoList::OfThread(1)])));
}

/// The manager's seat and a client's, which has sent so many one-way calls.
fn with_calls(driver: &mut Driver, codes: std::ops::Range<u32>) -> (Seat, Seat) {
    let (mut manager, mut client) = (driver.take_seat().expect("a seat"), driver.take_seat().expect("a seat"));
    manager.open(100, 1000, 65536).expect("opened");
    manager.manager().expect("set");
    manager.command(&Command::EnterLooper).expect("written");
    client.open(200, 2000, 65536).expect("opened");
    for code in codes {
        client.transact(0, code, ONE_WAY, &Parcel::from(&[code as u8; 24][..])).expect("written");
    }
    (manager, client)
}

#[test]
fn memory_of_an_answer_is_the_next_one_s() {
    let mut driver = Driver::new(2).expect("a driver");
    let (mut manager, _client) = with_calls(&mut driver, 1..3);
    let (mut places, mut others) = (vec![], vec![]);
    for code in 1..3_u8 {
        let Some(Answer::Got { stream, data, offsets }) = manager.read(256).expect("read").answer() else { panic!() };
        assert_eq!((&data[..], offsets.len()), (&[code; 24][..], 0));
        places.push((stream.as_ptr(), data.as_ptr()));
        let sizes = [stream.capacity(), data.capacity()];
        let answer = Answer::Got { stream, data, offsets };
        let Some(Return::Transaction(call)) = returns(answer.clone()).pop() else { panic!() };
        manager.command(&Command::FreeBuffer(call.buffer)).expect("written");
        manager.reuse(answer);
        // (memory that was given back would be these)
        others.extend(sizes.map(Vec::<u8>::with_capacity));
    }
    assert_eq!(places[0], places[1]);
}
