// SPDX-License-Identifier: Apache-2.0 OR MIT
//! The daemon's socket, and what is asked there (clients/protocol.h).
use super::Where;
use crate::record::u32_at;
use anyhow::{anyhow, bail, ensure, Context, Result};
use nix::errno::Errno;
use nix::sys::socket::{
    connect, getsockopt, recvmsg, send, setsockopt, socket, sockopt, AddressFamily, ControlMessageOwned, MsgFlags,
    SockFlag, SockType, UnixAddr,
};
use nix::sys::time::{TimeVal, TimeValLike};
use nix::unistd::geteuid;
use std::env;
use std::fs::File;
use std::io::IoSliceMut;
use std::os::unix::fs::{FileTypeExt, MetadataExt};
use std::os::unix::io::{AsRawFd, FromRawFd, RawFd};
use std::path::Path;
use std::time::{Duration, Instant};

/// What the daemon and its library say to one another: its number is asked for at each request.
const PROTOCOL: &str = include_str!("../../../clients/protocol.h");
const CONTROL_OPEN: u32 = 1;
const CONTROL_RING: u32 = 7;
const CONTROL_STATE: u32 = 8;
const DEVICE_ROOM: usize = 64;
const ANSWER_SIZE: usize = 16;
/// So many seconds a daemon may take for a connection, and for each answer.
const PATIENCE: i64 = 5;
/// So many pages are asked for, 4,194,304 records, and for so long: what listens there may be no daemon, and would be asked for ever.
const BOUNDS: Bounds = Bounds { pages: 1 << 18, time: Duration::from_secs(60) };

#[derive(Clone, Copy)]
struct Bounds {
    pages: u32,
    time: Duration,
}

/// The number in the line `#define PROTOCOL_VERSION Nu`.
fn protocol_version() -> u32 {
    let rest = PROTOCOL.split("#define PROTOCOL_VERSION ").nth(1).unwrap_or_default();
    rest.split(|it: char| !it.is_ascii_digit()).next().and_then(|it| it.parse().ok()).unwrap_or(0)
}

/// Sockets at which one looks, and whether somebody has chosen it.
fn sockets(given: Option<&str>) -> Vec<(String, bool)> {
    let chosen = given.map(String::from).or_else(|| env::var("HULLPIPPIN_SOCKET").ok().filter(|it| !it.is_empty()));
    if let Some(chosen) = chosen {
        return vec![(chosen, true)];
    }
    let runtime = env::var("XDG_RUNTIME_DIR").ok().filter(|it| it.starts_with('/'));
    unchosen(runtime.as_deref()).into_iter().map(|it| (it, false)).collect()
}

/// Addresses that nobody has chosen, in the order of clients/address.h.
fn unchosen(runtime: Option<&str>) -> Vec<String> {
    let own = format!("/tmp/hullpippin-{}/socket", geteuid());
    let runtime = runtime.map(|it| format!("{it}/hullpippin/socket"));
    runtime.into_iter().chain(["/run/hullpippin/socket".into(), own]).collect()
}

/// Whether who else could put a socket there, or a link to another, is kept from it: folder and socket are the user's own or root's, and
/// others may not write to the folder. Else one would wait for whoever listens there.
fn trusted(path: &str) -> Result<(), Errno> {
    let told = |path: &Path| {
        let found = path.symlink_metadata().map_err(|it| it.raw_os_error().map_or(Errno::EPERM, Errno::from_i32))?;
        let is_own = found.uid() == geteuid().as_raw() || found.uid() == 0;
        if is_own {
            Ok(found)
        } else {
            Err(Errno::EPERM)
        }
    };
    let path = Path::new(path);
    let folder = told(path.parent().unwrap_or(path))?;
    let is_safe = folder.is_dir() && folder.mode() & 0o022 == 0 && told(path)?.file_type().is_socket();
    if is_safe {
        Ok(())
    } else {
        Err(Errno::EPERM)
    }
}

/// A descriptor of one's own, which is closed in the end.
fn owned(fd: RawFd) -> File {
    // SAFETY: it was just made for this process, and nothing else has it.
    unsafe { File::from_raw_fd(fd) }
}

fn dial(path: &str, is_chosen: bool) -> Result<File, Errno> {
    if !is_chosen {
        trusted(path)?;
    }
    let end = owned(socket(AddressFamily::Unix, SockType::SeqPacket, SockFlag::SOCK_CLOEXEC, None)?);
    // Both before it is connected, which takes as long as a packet to be sent.
    setsockopt(end.as_raw_fd(), sockopt::SendTimeout, &TimeVal::seconds(PATIENCE))?;
    setsockopt(end.as_raw_fd(), sockopt::ReceiveTimeout, &TimeVal::seconds(PATIENCE))?;
    connect(end.as_raw_fd(), &UnixAddr::new(path)?)?;
    // At an address that anybody can take there is one's own daemon, or root's, or none.
    let peer = getsockopt(end.as_raw_fd(), sockopt::PeerCredentials)?.uid();
    if is_chosen || peer == geteuid().as_raw() || peer == 0 {
        Ok(end)
    } else {
        Err(Errno::EPERM)
    }
}

/// A connection to the daemon; None where there is none.
pub fn connection(given: Option<&str>) -> Result<Option<File>> {
    connection_at(sockets(given))
}

/// The first that can be had. What isn't open to this user, or is another one's, is passed over where nobody has chosen it.
fn connection_at(sockets: Vec<(String, bool)>) -> Result<Option<File>> {
    for (path, is_chosen) in sockets {
        match dial(&path, is_chosen) {
            Ok(end) => return Ok(Some(end)),
            Err(Errno::ENOENT | Errno::ECONNREFUSED) => {}
            Err(Errno::EACCES | Errno::EPERM) if !is_chosen => {}
            Err(error) => return Err(error).with_context(|| path.clone()),
        }
    }
    Ok(None)
}

/// What is asked of a device; two numbers say more where the request has any.
fn request(op: u32, numbers: [u64; 2], device: &str) -> Result<Vec<u8>> {
    ensure!(device.len() < DEVICE_ROOM, "{device}: no device has so long a name");
    let mut bytes = [protocol_version(), op].map(u32::to_le_bytes).concat();
    bytes.extend(numbers.map(u64::to_le_bytes).concat());
    bytes.extend(device.as_bytes());
    bytes.resize(8 + 16 + DEVICE_ROOM, 0);
    Ok(bytes)
}

/// Asks, and gives the file that comes with the answer. The answer has to be of that size, and begins with an errno or 0.
fn asked(end: &File, request: &[u8], answer: &mut [u8]) -> Result<(Option<Errno>, Option<File>)> {
    send(end.as_raw_fd(), request, MsgFlags::MSG_NOSIGNAL).context("the daemon")?;
    let wanted = answer.len();
    let mut room = nix::cmsg_space!(RawFd);
    let (size, mut files) = {
        let mut parts = [IoSliceMut::new(answer)];
        let flags = MsgFlags::MSG_CMSG_CLOEXEC;
        let got = recvmsg::<()>(end.as_raw_fd(), &mut parts, Some(&mut room), flags).context("the daemon")?;
        let rights = |it| if let ControlMessageOwned::ScmRights(fds) = it { Some(fds) } else { None };
        let files: Vec<File> = got.cmsgs().filter_map(rights).flatten().map(owned).collect();
        (if got.flags.contains(MsgFlags::MSG_TRUNC) { wanted + 1 } else { got.bytes }, files)
    };
    ensure!(size == wanted, "the daemon hung up: it may be of another version than {}", protocol_version());
    let error = u32_at(answer, 0) as i32;
    Ok((Some(error).filter(|it| *it != 0).map(Errno::from_i32), files.pop()))
}

/// Why a device's steps, or what goes on there, can't be had.
fn refusal(error: Option<Errno>, device: &str) -> anyhow::Error {
    match error {
        Some(Errno::EPERM) => anyhow!("the daemon shows its steps to its own user and to root, and to nobody else"),
        Some(Errno::ENOENT) => anyhow!("the daemon has no device {device}"),
        Some(error) => anyhow!("the daemon has no steps to show: {error}"),
        None => anyhow!("the daemon has no steps to show"),
    }
}

/// The memory that a device's latest steps are in.
fn ask(end: &File, device: &str) -> Result<File> {
    match asked(end, &request(CONTROL_RING, [0; 2], device)?, &mut [0; ANSWER_SIZE])? {
        (None, Some(memory)) => Ok(memory),
        (error, _) => Err(refusal(error, device)),
    }
}

/// Asks for what goes on on a device, page after page of so many bytes; each says where the next one begins.
pub fn each_page(place: &Where, size: usize, call: impl FnMut(&[u8]) -> [u64; 2]) -> Result<()> {
    pages_within(place, size, BOUNDS, call)
}

/// The same, of all that is told within some time.
fn pages_within(place: &Where, size: usize, bounds: Bounds, mut call: impl FnMut(&[u8]) -> [u64; 2]) -> Result<()> {
    let end = needed(connection(place.socket.as_deref())?, place)?;
    let device = &place.device;
    if let (Some(error), _) = asked(&end, &request(CONTROL_OPEN, [0; 2], device)?, &mut [0; ANSWER_SIZE])? {
        return Err(refusal(Some(error), device));
    }
    let (mut next, mut page, since) = ([0; 2], vec![0; size], Instant::now());
    for _ in 0..bounds.pages {
        ensure!(since.elapsed() <= bounds.time, "{device}: the daemon doesn't tell all of it in time");
        if let (Some(error), _) = asked(&end, &request(CONTROL_STATE, next, device)?, &mut page)? {
            return Err(refusal(Some(error), device));
        }
        let before = next;
        next = call(&page);
        if next[0] == 0 {
            return Ok(());
        }
        ensure!(next > before, "{device}: what the daemon tells of it doesn't go on");
    }
    bail!("{device}: what the daemon tells of it doesn't end")
}

/// What a daemon gives, for who can't do without one.
fn needed<T>(found: Option<T>, place: &Where) -> Result<T> {
    let there = sockets(place.socket.as_deref()).into_iter().map(|it| it.0).collect::<Vec<_>>().join(", ");
    found.with_context(|| format!("there is no daemon at {there}; hullpippin-run starts one"))
}

/// The ring of a device of the daemon that is meant; None where there is no daemon.
pub fn ring(place: &Where) -> Result<Option<super::ring::Ring>> {
    match connection(place.socket.as_deref())? {
        Some(end) => super::ring::Ring::new(ask(&end, &place.device)?).map(Some),
        None => Ok(None),
    }
}

/// The same, for who can't do without.
pub fn needed_ring(place: &Where) -> Result<super::ring::Ring> {
    needed(ring(place)?, place)
}

#[cfg(test)]
mod tests {
    use super::*;
    use nix::sys::socket::{accept, bind, listen, recv};
    use std::os::unix::fs::PermissionsExt;
    use std::sync::mpsc::channel;
    use std::thread;
    use std::time::Duration;

    #[test]
    fn a_request_is_as_the_header_has_it() {
        assert!(protocol_version() > 4, "{}", protocol_version());
        let bytes = request(CONTROL_RING, [0; 2], "/dev/binder").unwrap();
        assert_eq!((bytes.len(), &bytes[4..8], &bytes[24..36]), (88, &[7, 0, 0, 0][..], &b"/dev/binder\0"[..]));
        assert!(request(CONTROL_RING, [0; 2], &"x".repeat(64)).is_err());
        let bytes = request(CONTROL_STATE, [5, 6], "").unwrap();
        assert_eq!((bytes[8], bytes[16]), (5, 6));
        // Requests are numbered from 1.
        let ops = PROTOCOL.split("enum control_op {").nth(1).and_then(|it| it.split('}').next()).expect("requests");
        let names: Vec<_> = ops.lines().filter(|it| it.trim_start().starts_with("CONTROL_")).collect();
        let is = |op: u32, name| names[op as usize - 1].trim_start().starts_with(name);
        assert!(is(CONTROL_OPEN, "CONTROL_OPEN") && is(CONTROL_RING, "CONTROL_RING"), "{names:?}");
        assert!(is(CONTROL_STATE, "CONTROL_STATE"), "{names:?}");
    }

    /// What listens at a path of this test's own.
    fn listener(name: &str) -> (File, String) {
        let path = format!("/tmp/hullpippin-{name}-{}", std::process::id());
        let _ = std::fs::remove_file(&path);
        let end = owned(socket(AddressFamily::Unix, SockType::SeqPacket, SockFlag::SOCK_CLOEXEC, None).unwrap());
        bind(end.as_raw_fd(), &UnixAddr::new(path.as_str()).unwrap()).unwrap();
        listen(end.as_raw_fd(), 1).unwrap();
        (end, path)
    }

    #[test]
    fn addresses_that_nobody_has_chosen_are_in_the_order_of_the_library() {
        let header = include_str!("../../../clients/address.h");
        let order = header.split("enum { ").nth(1).and_then(|it| it.split('}').next()).expect("the order");
        assert_eq!(order.trim(), "ADDRESS_OF_RUNTIME, ADDRESS_OF_SYSTEM, ADDRESS_OF_TMP, ADDRESSES");
        let all = unchosen(Some("/run/user/1"));
        let own = format!("/tmp/hullpippin-{}/socket", geteuid());
        assert_eq!(all, ["/run/user/1/hullpippin/socket", "/run/hullpippin/socket", &own]);
        assert_eq!(unchosen(None), all[1..]);
    }

    #[test]
    fn what_others_could_have_put_there_is_passed_over() {
        let folder = format!("/tmp/hullpippin-passed-{}", std::process::id());
        let [open, own] = ["open", "own"].map(|it| format!("{folder}/{it}"));
        for (path, mode) in [(&folder, 0o700), (&open, 0o777), (&own, 0o700)] {
            std::fs::create_dir(path).unwrap();
            std::fs::set_permissions(path, PermissionsExt::from_mode(mode)).unwrap();
        }
        let (open_end, own_end) = (format!("{open}/socket"), format!("{own}/socket"));
        let _listening = [&open_end, &own_end].map(|it| {
            let end = owned(socket(AddressFamily::Unix, SockType::SeqPacket, SockFlag::SOCK_CLOEXEC, None).unwrap());
            bind(end.as_raw_fd(), &UnixAddr::new(it.as_str()).unwrap()).unwrap();
            listen(end.as_raw_fd(), 1).unwrap();
            end
        });
        let link = format!("{own}/link");
        std::os::unix::fs::symlink("socket", &link).unwrap();
        for path in [&open_end, &link] {
            assert_eq!(dial(path, false).unwrap_err(), Errno::EPERM, "{path}");
        }
        let all = [open_end, link, own_end].map(|it| (it, false)).to_vec();
        assert!(connection_at(all[..2].to_vec()).unwrap().is_none());
        assert!(connection_at(all).unwrap().is_some());
        std::fs::remove_dir_all(folder).unwrap();
    }

    fn at(path: &str) -> Where {
        Where { socket: Some(path.into()), device: "/dev/binder".into() }
    }

    #[test]
    fn who_never_answers_is_not_waited_for() {
        let (_end, path) = listener("mute");
        let (told, tells) = channel();
        let there = at(&path);
        thread::spawn(move || told.send(ring(&there).err().map(|it| format!("{it:#}"))));
        let told = tells.recv_timeout(Duration::from_secs(4 * PATIENCE as u64)).expect("it still waits");
        assert!(told.as_ref().map_or(false, |it| it.contains("EAGAIN")), "{told:?}");
        std::fs::remove_file(path).unwrap();
    }

    #[test]
    fn who_takes_nobody_is_not_waited_for() {
        let (_end, path) = listener("full");
        let (told, tells) = channel();
        let there = path.clone();
        thread::spawn(move || {
            let mut taken = Vec::new();
            let why = loop {
                match dial(&there, true) {
                    Ok(end) => taken.push(end),
                    Err(why) => break why,
                }
            };
            told.send(why)
        });
        let why = tells.recv_timeout(Duration::from_secs(4 * PATIENCE as u64)).expect("it still waits");
        assert_eq!(why, Errno::EAGAIN);
        std::fs::remove_file(path).unwrap();
    }

    /// Answers one client, each time after a pause: that a device is opened, and then pages of 8 bytes.
    fn answers(end: File, pause: Duration) -> thread::JoinHandle<()> {
        thread::spawn(move || {
            let client = owned(accept(end.as_raw_fd()).unwrap());
            let mut request = [0; 256];
            let mut answer = vec![0; ANSWER_SIZE];
            while recv(client.as_raw_fd(), &mut request, MsgFlags::empty()).map_or(false, |it| it > 0) {
                thread::sleep(pause);
                let _ = send(client.as_raw_fd(), &answer, MsgFlags::MSG_NOSIGNAL);
                answer = vec![0; 8];
            }
        })
    }

    #[test]
    fn who_tells_too_slowly_is_not_listened_to() {
        let (end, path) = listener("slow");
        let answering = answers(end, Duration::from_millis(100));
        let mut pages = 0;
        let bounds = Bounds { time: Duration::from_millis(500), ..BOUNDS };
        let told = pages_within(&at(&path), 8, bounds, |_| {
            pages += 1;
            [if pages > 50 { 0 } else { pages }, 0]
        });
        assert!(told.expect_err("it is listened to").to_string().contains("in time"));
        assert!((1..=5).contains(&pages), "{pages}");
        answering.join().unwrap();
        std::fs::remove_file(path).unwrap();
    }

    /// Few pages and much time, since a busy machine takes a minute for all that are asked for elsewhere.
    #[test]
    fn who_tells_for_ever_is_not_listened_to() {
        const PAGES: u32 = 1000;
        let (end, path) = listener("endless");
        let answering = answers(end, Duration::ZERO);
        let mut pages = 0;
        let told = pages_within(&at(&path), 8, Bounds { pages: PAGES, time: 100 * BOUNDS.time }, |_| {
            pages += 1;
            [if pages > 2 * u64::from(PAGES) { 0 } else { pages }, 0]
        });
        assert!(told.expect_err("no end").to_string().contains("doesn't end"));
        assert_eq!(pages, u64::from(PAGES));
        answering.join().unwrap();
        std::fs::remove_file(path).unwrap();
    }
}
