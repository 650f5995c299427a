// SPDX-License-Identifier: Apache-2.0 OR MIT
//! Many journals judged at once by GNU parallel, here and on hosts that are network namespaces. HULLPIPPIN_LIBRARY names the library.
mod common;
use common::*;
use serde_json::{json, Value};
use std::fs;
use std::path::{Path, PathBuf};
use std::process::Command;

/// A folder with a lawful journal, an unlawful one and one that is none, whose names have blanks and quotes.
struct Folder(PathBuf);

impl Folder {
    fn new(name: &str) -> Folder {
        let folder = PathBuf::from(env!("CARGO_TARGET_TMPDIR")).join(format!("{}-{name}", std::process::id()));
        fs::create_dir_all(folder.join("within")).expect("a folder");
        let mut unlawful = Journal::one_way();
        let at = unlawful.bytes.windows(2).rposition(|it| it == b"hi").expect("what was read");
        unlawful.bytes[at + 1] = b'o';
        fs::write(folder.join("a.journal"), Journal::one_way().bytes).expect("a file");
        fs::write(folder.join("within/b 'c' \".journal"), unlawful.bytes).expect("a file");
        fs::write(folder.join("z.journal"), b"hello").expect("a file");
        fs::write(folder.join("other.txt"), b"hello").expect("a file");
        Folder(folder)
    }
}

impl Drop for Folder {
    fn drop(&mut self) {
        let _ = fs::remove_dir_all(&self.0);
    }
}

/// The rows, without what is another each time, and the status.
fn judged(folder: &Path, options: &[&str], path: Option<&Path>) -> (Vec<Value>, Option<i32>, Vec<String>) {
    let script = concat!(env!("CARGO_MANIFEST_DIR"), "/judge-all");
    let mut command = Command::new(script);
    command.arg(folder).args(options).env("HULLPIPPIN", env!("CARGO_BIN_EXE_hullpippin")).env_remove("SHELL");
    if let Some(path) = path {
        command.env("PATH", format!("{}:{}", path.display(), std::env::var("PATH").unwrap_or_default()));
    }
    let done = command.output().expect("judge-all");
    let text = String::from_utf8_lossy(&done.stdout).into_owned();
    let mut rows: Vec<Value> = text.lines().map(|it| serde_json::from_str(it).expect("JSON")).collect();
    let hosts = rows.iter().map(|it| it["host"].as_str().expect("a host").to_string()).collect();
    for row in &mut rows {
        let row = row.as_object_mut().expect("members");
        row.retain(|name, _| ["file", "status", "verdict"].contains(&&name[..]));
    }
    (rows, done.status.code(), hosts)
}

fn wanted(folder: &Path) -> Vec<Value> {
    let of = |name: &str, status: u8, verdict: &str| json!({"file": folder.join(name).display().to_string(), "status": status, "verdict": verdict});
    let rows = [("a.journal", 0, "lawful"), ("within/b 'c' \".journal", 1, "unlawful"), ("z.journal", 1, "untold")];
    rows.map(|(name, status, verdict)| of(name, status, verdict)).to_vec()
}

#[test]
#[ignore = "needs parallel and the library"]
fn each_journal_of_a_folder_has_its_verdict() {
    let folder = Folder::new("many");
    let (rows, status, _) = judged(&folder.0, &["--jobs", "2"], None);
    assert_eq!((rows, status), (wanted(&folder.0), Some(1)));
    fs::remove_dir_all(folder.0.join("within")).expect("it goes");
    fs::remove_file(folder.0.join("z.journal")).expect("it goes");
    assert_eq!(judged(&folder.0, &[], None).1, Some(0));
    fs::remove_file(folder.0.join("a.journal")).expect("it goes");
    assert_eq!(judged(&folder.0, &[], None).1, Some(2), "there is none");
}

/// What parallel takes for ssh: it enters the network namespace of that name, and runs there what ssh would. A login has a shell by name,
/// which parallel leans on: where SHELL is unset, as under a service, it runs nothing and says that all went well.
/// `ip netns exec` would mount /sys anew, which it can't in a root that is no mount point, as in a chroot.
const SSH: &str = "#!/bin/sh
while case $1 in -*) true ;; *) false ;; esac; do shift; done
host=$1
shift
[ \"$1\" != -- ] || shift
export SHELL=/bin/sh
exec nsenter --net=/run/netns/\"$host\" sh -c \"$*\"
";

fn ip(words: &[&str]) -> bool {
    Command::new("ip").args(words).output().map_or(false, |it| it.status.success())
}

/// Network namespaces that go in the end.
struct Hosts([String; 2]);

impl Hosts {
    /// None where they can't be made.
    fn new() -> Option<Hosts> {
        let hosts = Hosts([1, 2].map(|it| format!("hullpippin-{}-{it}", std::process::id())));
        hosts.0.iter().all(|it| ip(&["netns", "add", it])).then_some(hosts)
    }
}

impl Drop for Hosts {
    fn drop(&mut self) {
        for host in &self.0 {
            ip(&["netns", "del", host]);
        }
    }
}

#[test]
#[ignore = "needs parallel, the library and network namespaces"]
fn several_hosts_judge_together() {
    let hosts = match Hosts::new() {
        Some(hosts) => hosts,
        None => {
            eprintln!("network namespaces can't be made here, so several hosts aren't tried");
            return;
        }
    };
    let (folder, room) = (Folder::new("hosts"), Folder::new("ssh"));
    fs::write(room.0.join("ssh"), SSH).expect("a file");
    fs::set_permissions(room.0.join("ssh"), std::os::unix::fs::PermissionsExt::from_mode(0o755)).expect("its mode");
    let login = hosts.0.clone().map(|it| format!("1/{it}")).join(",");
    let options = ["--sshlogin", &login, "--env", "HULLPIPPIN_LIBRARY"];
    let (rows, status, mut used) = judged(&folder.0, &options, Some(&room.0));
    assert_eq!((rows, status), (wanted(&folder.0), Some(1)));
    used.sort();
    used.dedup();
    assert_eq!(used, hosts.0, "both were used");
}
