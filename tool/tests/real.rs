// SPDX-License-Identifier: Apache-2.0 OR MIT
//! Unmodified programs of libgbinder over a daemon that runs. HULLPIPPIN_CLIENTS names the folder in which the daemon is built, with the
//! tools that `make tools` fetches. `tool/check` runs this where both are there.
mod common;
use common::*;
use std::fs;
use std::path::PathBuf;
use std::process::{Child, Command, Stdio};
use std::thread::sleep;
use std::time::{Duration, Instant};

fn clients() -> String {
    std::env::var("HULLPIPPIN_CLIENTS").expect("HULLPIPPIN_CLIENTS names the folder of the daemon")
}

/// A daemon with the managers and a service, which end with this.
struct Daemon {
    room: PathBuf,
    daemon: Child,
    service: Option<Child>,
}

impl Daemon {
    fn new(name: &str) -> Daemon {
        // A socket's path has to be short.
        let room = PathBuf::from(format!("/tmp/hullpippin-real-{}-{name}", std::process::id()));
        let _ = fs::remove_dir_all(&room);
        fs::create_dir(&room).expect("a folder");
        let daemon = Command::new(format!("{}/out/hullpippind", clients()))
            .args(["--log", &format!("{}/log", room.display())])
            .env("HULLPIPPIN_SOCKET", room.join("socket"))
            .stdin(Stdio::null())
            .spawn()
            .expect("the daemon");
        let mut running = Daemon { room, daemon, service: None };
        running.wait_for("the socket", |it| it.room.join("socket").exists());
        let said = fs::File::create(running.room.join("service")).expect("a file");
        let mut service = Command::new(running.run());
        service.args(["--managers", "hullpippin-hello"]).env("HULLPIPPIN_SOCKET", running.room.join("socket"));
        running.service = Some(service.stdin(Stdio::null()).stdout(said).spawn().expect("the service"));
        running.wait_for("the service", |it| {
            fs::read_to_string(it.room.join("service")).map_or(false, |it| it.contains("ready"))
        });
        running
    }

    fn run(&self) -> String {
        format!("{}/hullpippin-run", clients())
    }

    fn wait_for(&self, what: &str, is_so: impl Fn(&Daemon) -> bool) {
        let until = Instant::now() + Duration::from_secs(60);
        while !is_so(self) {
            assert!(Instant::now() < until, "{what} isn't there");
            sleep(Duration::from_millis(20));
        }
    }

    /// What the program prints, on standard output and on standard error.
    fn asked(&self, words: &[&str]) -> (String, String) {
        let mut command = program();
        command.args(words).env("HULLPIPPIN_SOCKET", self.room.join("socket")).env("HULLPIPPIN_RUN", self.run());
        let done = command.stdin(Stdio::null()).output().expect("the program");
        let text = |it: Vec<u8>| String::from_utf8(it).expect("text");
        let (out, said) = (text(done.stdout), text(done.stderr));
        assert!(done.status.success(), "{words:?}: {said}");
        (out, said)
    }
}

impl Drop for Daemon {
    fn drop(&mut self) {
        for child in self.service.iter_mut().chain([&mut self.daemon]) {
            let _ = child.kill();
            let _ = child.wait();
        }
        let _ = fs::remove_dir_all(&self.room);
    }
}

/// A line of `trace`: who calls whom, what; and what it ended with, where that is a reply with a latency.
fn call(line: &str) -> (String, String, String) {
    let (head, end) = line.split_once(" = ").unwrap_or_else(|| panic!("no end: {line}"));
    let (time, rest) = head.split_once(' ').expect("a time");
    assert_eq!((time.len(), time.matches(':').count()), ("13:02:37.414109".len(), 2), "{line}");
    let (from, rest) = rest.split_once(" -> ").expect("a caller");
    let (to, what) = rest.split_once(") ").expect("a server");
    let thread = |it: &str| {
        it.split_once('(')
            .map(|it| it.1.trim_end_matches(')').split('/').filter_map(|it| it.parse::<u32>().ok()).count())
    };
    assert_eq!((thread(from), thread(to)), (Some(2), Some(2)), "{line}");
    let units = ["ns", "us", "ms", "s"];
    let latency = end.split_once(" B <").map(|it| it.1.trim_end_matches(" unread>")).expect(line);
    let times: Vec<&str> = latency.split(", ").collect();
    let is_time = |it: &&str| {
        it.split_once(' ').map_or(false, |(number, unit)| number.parse::<f64>().is_ok() && units.contains(&unit))
    };
    assert!(times.len() == 2 && times.iter().all(is_time), "{line}");
    let name = |it: &str| it.split('(').next().unwrap_or_default().to_string();
    (name(from), name(to), what.to_string())
}

#[test]
#[ignore = "needs the daemon and libgbinder's tools"]
fn calls_of_unmodified_programs_are_told_with_their_interfaces() {
    let daemon = Daemon::new("trace");
    let (listed, said) = daemon.asked(&["trace", "binder-list", "-d", "/dev/binder"]);
    assert_eq!(listed, "hello\n");
    let calls: Vec<_> = said.lines().map(call).collect();
    let of_manager =
        calls.iter().filter(|it| it.1 == "servicemanager" && it.2.starts_with("android.os.IServiceManager#4 "));
    // The tool asks for one name after the other, until there is none.
    assert_eq!(of_manager.count(), 2, "{said}");
    let (pinged, said) = daemon.asked(&["trace", "binder-ping", "-d", "/dev/binder", "hello"]);
    assert_eq!(pinged, "OK\n");
    let calls: Vec<_> = said.lines().map(call).collect();
    let ping = calls.last().expect("a call");
    assert!(ping.1 == "hello" && ping.2.starts_with("hello _PNG "), "{said}");
    // They are called by their own names, whatever loader starts them.
    assert!(calls.iter().all(|it| it.0.starts_with("binder-")), "{said}");
}

#[test]
#[ignore = "needs the daemon and libgbinder's tools"]
fn what_goes_on_is_told_of_a_real_daemon() {
    let daemon = Daemon::new("state");
    let (told, _) = daemon.asked(&["state", "--daemon"]);
    let of = |word: &str| told.lines().filter(|it| it.contains(word)).collect::<Vec<_>>();
    assert_eq!(of(", context manager").len(), 1, "{told}");
    assert_eq!(of("in the loop, waits in a read").len(), 2, "{told}");
    let handles = of("  handle 1 object ");
    assert!(handles.len() == 1 && handles[0].ends_with(" \"hello\""), "{told}");
    let (json, _) = daemon.asked(&["state", "--daemon", "--format", "json"]);
    let values: Vec<serde_json::Value> = json.lines().map(|it| serde_json::from_str(it).expect("JSON")).collect();
    let (screen, _) = daemon.asked(&["top", "--once", "--interval", "0.1"]);
    // The service has never freed the reply to its registration: 8 bytes of 65536.
    let process = screen.lines().find(|it| it.contains("hello(")).expect("a process");
    let words: Vec<&str> = process.split_whitespace().collect();
    assert_eq!(words[5..7], ["1", "0%"], "{screen}");
    let manager = values.iter().find(|it| it["manager"] == true).expect("a manager");
    assert_eq!(manager["handles"][0]["owner"]["comm"], "hello");
}
