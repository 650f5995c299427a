// SPDX-License-Identifier: Apache-2.0 OR MIT
//! What a device says of its services: `service list` their names and interfaces, `dumpsys --pid` the process of each, `dumpsys -l` their
//! names alone. Each is known by its lines, so one file may have all of them.
use crate::kernel::lines::{digits_of, number_u32, Lines};
use anyhow::{bail, ensure, Result};
use std::collections::{BTreeMap, BTreeSet};

/// More services than this are taken from no file: some phones have 400.
const MOST: usize = 1 << 16;
/// No service's name is longer, in bytes.
const LONGEST: usize = 1024;

/// All that files have said.
#[derive(Clone, Debug, Default, PartialEq, Eq)]
pub struct Said {
    /// Each service by its name, with its interface where one is told.
    pub services: BTreeMap<String, Option<String>>,
    /// The services of each process.
    pub processes: BTreeMap<u32, BTreeSet<String>>,
}

/// What a line says.
#[derive(Debug, PartialEq, Eq)]
enum Line<'a> {
    Service(&'a [u8], &'a [u8]),
    /// What stands behind it is one service's.
    Heading(&'a [u8]),
    /// Names stand behind it, a line each.
    Names,
    Other,
}

fn between<'a>(line: &'a [u8], begin: &str, end: &str) -> Option<&'a [u8]> {
    line.strip_prefix(begin.as_bytes())?.strip_suffix(end.as_bytes())
}

/// As `12 TAB activity: [android.app.IActivityManager]`; the brackets are empty where the service doesn't say.
fn service(line: &[u8]) -> Option<Line<'_>> {
    let tab = line.iter().position(|it| *it == b'\t')?;
    digits_of(&line[..tab], 10)?;
    let rest = line[tab + 1..].strip_suffix(b"]")?;
    let colon = rest.windows(3).rposition(|it| it == b": [")?;
    Some(Line::Service(&rest[..colon], &rest[colon + 3..]))
}

fn line(line: &[u8]) -> Line<'_> {
    if line == b"Currently running services:" {
        return Line::Names;
    }
    match between(line, "DUMP OF SERVICE ", ":") {
        // Where services are dumped by their priority, that stands before the name.
        Some(heading) => Line::Heading(heading.rsplit(|it| *it == b' ').next().unwrap_or(heading)),
        None => service(line).unwrap_or(Line::Other),
    }
}

/// A name, if it may be one.
fn name(bytes: &[u8]) -> Option<String> {
    let text = std::str::from_utf8(bytes).ok()?;
    let is_name = !text.is_empty() && text.len() <= LONGEST && !text.chars().any(|it| it.is_control() || it == ' ');
    is_name.then(|| text.into())
}

impl Said {
    fn add(&mut self, service: String, interface: Option<String>) {
        let known = self.services.entry(service).or_default();
        *known = interface.or_else(|| known.take());
    }

    /// Takes what a file's lines say, and adds it; a file that says nothing of services is told.
    pub fn read(&mut self, lines: &mut Lines<'_>) -> Result<()> {
        let (mut heading, mut is_within, mut count) = (None, false, 0usize);
        while let Some(bytes) = lines.next()? {
            let found = line(bytes);
            let indented = bytes.strip_prefix(b"  ").filter(|_| is_within && found == Line::Other);
            is_within = found == Line::Names || indented.is_some();
            let dumped: Option<String> = heading.take();
            match (found, dumped, indented.and_then(name)) {
                (Line::Service(service, interface), ..) => {
                    name(service).into_iter().for_each(|it| self.add(it, name(interface)));
                    count += 1;
                }
                (Line::Heading(service), ..) => {
                    heading = name(service);
                    count += 1;
                }
                (Line::Other, Some(service), _) => self.dumped(service, number_u32(bytes)),
                (Line::Other, None, Some(service)) => self.add(service, None),
                (Line::Names, ..) => count += 1,
                (Line::Other, None, None) => {}
            }
            ensure!(self.services.len() < MOST, "it has more than {MOST} services");
        }
        lines.check_end()?;
        if count == 0 {
            bail!("it names no services: neither lines of `service list`, as 0 TAB activity: [android.app.IActivityManager], nor of `dumpsys --pid`, as DUMP OF SERVICE activity:");
        }
        Ok(())
    }

    /// The first line of what a service is dumped as: its process, where that was asked for.
    fn dumped(&mut self, service: String, pid: Option<u32>) {
        if let Some(pid) = pid.filter(|it| *it > 0) {
            self.processes.entry(pid).or_default().insert(service.clone());
        }
        self.add(service, None);
    }
}

#[cfg(test)]
mod tests {
    use super::*;

    fn of(text: &str) -> Result<Said> {
        let mut said = Said::default();
        said.read(&mut Lines::new(Box::new(text.as_bytes())))?;
        Ok(said)
    }

    fn services(said: &Said) -> Vec<(&str, Option<&str>)> {
        said.services.iter().map(|it| (&it.0[..], it.1.as_deref())).collect()
    }

    #[test]
    fn a_list_has_names_and_interfaces() {
        let said = of("Found 3 services:\n0\thello: [a.IHello]\n1\ta.b.IC/default: [a.b.IC]\n2\tsilent: []\n").unwrap();
        assert_eq!(
            services(&said),
            [("a.b.IC/default", Some("a.b.IC")), ("hello", Some("a.IHello")), ("silent", None)]
        );
        assert!(said.processes.is_empty());
    }

    const PIDS: &str = "\
Currently running services:
  hello
  other
  gone (skipped)
-------------------------------------------------------------------------------
DUMP OF SERVICE hello:
189
--------- 0.001s was the duration of dumpsys hello, ending at: 2026-11-29 08:00:01
-------------------------------------------------------------------------------
DUMP OF SERVICE CRITICAL other:
ACTIVITY MANAGER SETTINGS (dumpsys activity settings)
  12
";

    /// What a service prints of itself is no pid, nor are its own lines names.
    #[test]
    fn a_dump_has_the_process_of_each() {
        let said = of(PIDS).unwrap();
        assert_eq!(services(&said), [("hello", None), ("other", None)]);
        assert_eq!(said.processes.into_iter().collect::<Vec<_>>(), [(189, BTreeSet::from(["hello".to_string()]))]);
    }

    #[test]
    fn files_are_put_together() {
        let mut said = of("0\thello: [a.IHello]\n").unwrap();
        said.read(&mut Lines::new(Box::new(PIDS.as_bytes()))).unwrap();
        assert_eq!(services(&said), [("hello", Some("a.IHello")), ("other", None)]);
    }

    #[test]
    fn what_names_no_services_is_told() {
        for text in ["", "x\n", "0 hello: [a]\n", "x\thello: [a]\n"] {
            assert!(of(text).unwrap_err().to_string().starts_with("it names no services"), "{text}");
        }
        assert_eq!(of("0\thello: [a.IHello]\n1\tcu").unwrap_err().to_string(), "line 2 breaks off; it is left out");
        // Letters that would move a terminal's cursor are in no name.
        assert!(services(&of("0\th\x1b[2J: [a]\n").unwrap()).is_empty());
    }
}
