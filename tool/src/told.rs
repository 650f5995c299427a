// SPDX-License-Identifier: Apache-2.0 OR MIT
//! A line for each call, as strace has one for each call of the system; and which calls are wanted.
use crate::out::Palette;
use crate::select::code;
use clap::Args;

/// Which calls are told.
#[derive(Args, Clone, Debug, Default)]
pub struct Wanted {
    /// Only calls that this process makes or serves; repeat it for more
    #[arg(long, value_name = "PID")]
    pub pid: Vec<u32>,
    /// Only calls that a thread or a process of this name makes or serves; repeat it for more
    #[arg(long, value_name = "NAME")]
    pub comm: Vec<String>,
    /// Only calls with this code: 7, 0x7 or four letters, as _PNG
    #[arg(long, value_name = "CODE", value_parser = code)]
    pub code: Option<u32>,
    /// Only calls on this interface, as android.os.IServiceManager or IServiceManager, or to what the lines call so; repeat it for more
    #[arg(long, value_name = "NAME")]
    pub interface: Vec<String>,
    /// Only refused calls, and calls without a reply
    #[arg(long)]
    pub failed: bool,
}

/// What one may choose a call by.
#[derive(Clone, Debug, Default)]
pub struct Subject<'a> {
    pub pids: Vec<u32>,
    pub comms: Vec<&'a str>,
    pub code: u32,
    pub interface: Option<&'a str>,
    /// What its line calls the object that is called.
    pub called: Option<&'a str>,
    pub has_failed: bool,
}

/// Whether an interface is meant by a word: its name, or what stands behind the last dot or colon of it.
fn is_meant(interface: &str, word: &str) -> bool {
    interface == word || interface.rsplit(['.', ':']).next() == Some(word)
}

impl Wanted {
    /// Whether it leaves anything out.
    pub fn is_any(&self) -> bool {
        let lists = !self.pid.is_empty() || !self.comm.is_empty() || !self.interface.is_empty();
        lists || self.code.is_some() || self.failed
    }

    pub fn has(&self, it: &Subject<'_>) -> bool {
        (self.pid.is_empty() || it.pids.iter().any(|pid| self.pid.contains(pid)))
            && (self.comm.is_empty() || it.comms.iter().any(|comm| self.comm.iter().any(|word| word == comm)))
            && self.code.map_or(true, |code| code == it.code)
            && (self.interface.is_empty() || self.is_on(it.interface) || self.is_to(it.called))
            && (!self.failed || it.has_failed)
    }

    fn is_on(&self, interface: Option<&str>) -> bool {
        interface.map_or(false, |it| self.interface.iter().any(|word| is_meant(it, word)))
    }

    fn is_to(&self, called: Option<&str>) -> bool {
        called.map_or(false, |it| self.interface.iter().any(|word| word == it))
    }
}

/// How a call ended.
#[derive(Clone, Debug, PartialEq, Eq)]
pub enum Ending {
    /// Its reply was read; or itself, where it is one-way.
    Done,
    Failed,
    /// Its caller's thread or process has ended.
    Left,
    Refused(String),
    /// Not yet.
    Open,
}

/// For how long nobody had read a call.
#[derive(Clone, Debug, PartialEq, Eq)]
pub enum Unread {
    For(String),
    /// It was never read.
    Always,
}

/// A call in words; of what isn't known there are none.
#[derive(Clone, Debug)]
pub struct Told {
    pub when: String,
    pub from: String,
    pub to: String,
    /// The object's name, and the method's or the code.
    pub what: String,
    pub one_way: bool,
    pub size: Option<u64>,
    pub reply_size: Option<u64>,
    pub ending: Ending,
    pub took: Option<String>,
    pub unread: Unread,
    /// What it hands over.
    pub passed: String,
}

impl Told {
    /// The beginning of a line: when, who calls whom, what, with how much.
    fn head(&self, palette: &Palette) -> String {
        let Palette { place, name, text, plain, .. } = palette;
        let Told { when, from, to, what, .. } = self;
        let one_way = if self.one_way { " one-way" } else { "" };
        let size = self.size.map_or(String::new(), |it| format!(" {it} B"));
        format!("{place}{when}{plain} {name}{from}{plain} -> {name}{to}{plain} {text}{what}{plain}{one_way}{size}")
    }

    fn end(&self, palette: &Palette) -> String {
        let Palette { refused, plain, .. } = palette;
        match (&self.ending, self.reply_size) {
            (Ending::Done, _) if self.one_way => String::new(),
            (Ending::Done, Some(size)) => format!(" = {size} B"),
            (Ending::Done, None) => " = a reply".into(),
            (Ending::Failed, _) => format!(" = {refused}no reply{plain}"),
            (Ending::Left, _) => format!(" = {refused}nobody waits any more{plain}"),
            (Ending::Refused(why), _) => format!(" = {refused}{why}{plain}"),
            (Ending::Open, _) => " = open".into(),
        }
    }

    fn lasted(&self) -> String {
        let took = match (&self.ending, &self.took) {
            (Ending::Refused(_) | Ending::Open, _) | (_, None) => return String::new(),
            (_, Some(took)) => took,
        };
        match (&self.ending, &self.unread) {
            (Ending::Done, Unread::For(_)) if self.one_way => format!(" <{took} unread>"),
            (_, Unread::For(unread)) => format!(" <{took}, {unread} unread>"),
            (_, Unread::Always) => format!(" <{took}, never read>"),
        }
    }

    /// The line, with its end.
    pub fn line(&self, palette: &Palette) -> String {
        format!("{}{}{}{}\n", self.head(palette), self.end(palette), self.lasted(), self.passed)
    }
}

#[cfg(test)]
mod tests {
    use super::*;

    fn subject() -> Subject<'static> {
        let comms = vec!["main", "Binder:7_1"];
        let interface = Some("android.os.IServiceManager");
        Subject { pids: vec![7, 8], comms, code: 3, interface, called: Some("manager"), has_failed: false }
    }

    fn wanted(change: impl Fn(&mut Wanted)) -> bool {
        let mut wanted = Wanted::default();
        change(&mut wanted);
        wanted.has(&subject())
    }

    #[test]
    fn calls_are_chosen_by_all_that_is_asked() {
        assert!(wanted(|_| {}));
        assert!(wanted(|it| it.pid = vec![1, 8]) && !wanted(|it| it.pid = vec![1]));
        assert!(wanted(|it| it.comm = vec!["main".into()]) && !wanted(|it| it.comm = vec!["mai".into()]));
        assert!(wanted(|it| it.code = Some(3)) && !wanted(|it| it.code = Some(4)));
        assert!(wanted(|it| it.interface = vec!["IServiceManager".into()]));
        assert!(wanted(|it| it.interface = vec!["android.os.IServiceManager".into()]));
        assert!(!wanted(|it| it.interface = vec!["ServiceManager".into()]));
        assert!(wanted(|it| it.interface = vec!["manager".into()]) && !wanted(|it| it.interface = vec!["age".into()]));
        assert!(!wanted(|it| it.failed = true));
        assert!(!wanted(|it| (it.pid, it.code) = (vec![7], Some(4))));
    }
}
