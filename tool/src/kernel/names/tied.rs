// SPDX-License-Identifier: Apache-2.0 OR MIT
//! Which node has which name, as far as only one can be meant. A node that somebody calls by handle 0 is its context's manager. One whose
//! ptr a recording has seen being registered has that name. And where the manager holds one single node of a process, all names that
//! `dumpsys --pid` gives the process are that node's: the manager holds each service. Nothing else ties a name to a node.
use super::registered::Registered;
use super::said::Said;
use crate::kernel::log::Entry;
use crate::kernel::state::{Process, State};
use std::collections::{BTreeMap, HashMap, HashSet};

/// What people call the object that handle 0 leads to.
const MANAGER: &str = "manager";
/// The context that `service list` and `dumpsys` ask.
const CONTEXT: &str = "binder";

/// A node's name, with its owner: another boot has another node by that number.
#[derive(Clone, Debug, PartialEq, Eq)]
pub struct Named {
    pub owner: u32,
    pub service: String,
    pub interface: Option<String>,
}

/// A context's manager: its node, and whose that is.
#[derive(Clone, Copy, Debug, PartialEq, Eq)]
struct Manager<'a> {
    context: &'a str,
    node: u64,
    owner: u32,
}

fn owner(state: &State, context: &str, node: u64) -> Option<u32> {
    let owns = |it: &&Process| it.context == context && it.has(node);
    state.processes.iter().find(owns).map(|it| it.pid)
}

/// The managers that a state's handles and a log's calls tell; of a log without a state those that were called last.
fn managers<'a>(state: Option<&'a State>, log: &'a [Entry]) -> Vec<Manager<'a>> {
    let processes = state.iter().flat_map(|it| &it.processes);
    let by_handle = processes.flat_map(|process| {
        let zero = process.references.iter().filter(|it| it.handle == 0 && !it.is_dead);
        zero.map(move |it| (&process.context[..], it.node))
    });
    let calls = log.iter().filter(|it| it.handle == 0 && it.node > 0 && !it.is_refused());
    let mut found = Vec::new();
    for (context, node, called) in by_handle
        .map(|(context, node)| (context, node, None))
        .chain(calls.map(|it| (&it.context[..], it.node, Some(it.to.0))))
    {
        // What a log remembers may have ended since.
        let owner = match state.filter(|it| it.is_whole) {
            Some(state) => owner(state, context, node),
            None => called,
        };
        let manager = owner.map(|owner| Manager { context, node, owner });
        found.extend(manager.filter(|it| !found.contains(it)));
    }
    found
}

/// The one whose services have names.
fn asked<'a>(managers: &[Manager<'a>]) -> Option<Manager<'a>> {
    let named: Vec<Manager<'_>> = managers.iter().copied().filter(|it| it.context == CONTEXT).collect();
    match (&named[..], managers) {
        ([one], _) | ([], [one]) => Some(*one),
        _ => None,
    }
}

/// The nodes that a manager holds, by whose they are.
fn held<'a>(state: &'a State, manager: Manager<'a>) -> BTreeMap<u32, Vec<u64>> {
    let of_context = || state.processes.iter().filter(|it| it.context == manager.context);
    let managers = of_context().filter(|it| it.pid == manager.owner);
    let held: HashSet<u64> = managers.flat_map(|it| &it.references).map(|it| it.node).collect();
    let mut found = BTreeMap::<u32, Vec<u64>>::new();
    for process in of_context() {
        let nodes = process.nodes.iter().map(|it| it.number).filter(|it| held.contains(it));
        found.entry(process.pid).or_default().extend(nodes);
    }
    found
}

/// All names of a node, with the interface that they agree on.
fn named(owner: u32, names: &[String], said: &Said) -> Named {
    let mut interfaces: Vec<_> = names.iter().filter_map(|it| said.services.get(it)?.clone()).collect();
    interfaces.dedup();
    let interface = if interfaces.len() == 1 { interfaces.pop() } else { None };
    Named { owner, service: names.join(", "), interface }
}

/// Ties names to the nodes of one moment.
pub fn tied(said: &Said, registered: &Registered, state: Option<&State>, log: &[Entry]) -> HashMap<u64, Named> {
    let managers = managers(state, log);
    let mut found = HashMap::new();
    if let (Some(state), Some(manager)) = (state, asked(&managers)) {
        for (pid, nodes) in held(state, manager) {
            if let ([node], Some(names)) = (&nodes[..], said.processes.get(&pid)) {
                let names: Vec<String> = names.iter().cloned().collect();
                found.insert(*node, named(pid, &names, said));
            }
        }
    }
    for process in state.iter().flat_map(|it| &it.processes) {
        let of = |ptr| registered.objects.get(&(process.pid, ptr));
        let known = process.nodes.iter().filter_map(|it| Some((it.number, of(it.ptr)?.clone())));
        found.extend(known.map(|(node, name)| (node, named(process.pid, &[name], said))));
    }
    found.extend(managers.iter().map(|it| (it.node, named(it.owner, &[MANAGER.to_string()], said))));
    found
}

#[cfg(test)]
mod tests {
    use super::*;
    use crate::kernel::lines::Lines;
    use crate::kernel::{log, state};

    /// Two processes have services, one of them a second object that the manager holds; a third one has what nobody registered.
    const STATE: &str = "\
binder state:
proc 9
context binder
  node 30: u0000000000003000 c0000000000000000 hs 1 hw 1 ls 0 lw 0 is 1 iw 1 tr 1 proc 7
  ref 31: desc 0 node 1 s 1 w 1 d 0000000000000000
proc 8
context binder
  node 20: u0000000000002000 c0000000000000000 hs 1 hw 1 ls 0 lw 0 is 1 iw 1 tr 1 proc 5
  node 21: u0000000000002100 c0000000000000000 hs 1 hw 1 ls 0 lw 0 is 1 iw 1 tr 1 proc 5
proc 7
context binder
  node 10: u0000000000001000 c0000000000000000 hs 1 hw 1 ls 0 lw 0 is 1 iw 1 tr 1 proc 5
  node 11: u0000000000001100 c0000000000000000 hs 1 hw 1 ls 0 lw 0 is 1 iw 1 tr 1 proc 9
proc 5
context binder
  node 1: u0000000000000000 c0000000000000000 hs 1 hw 1 ls 0 lw 0 is 1 iw 1 tr 1 proc 9
  ref 12: desc 1 node 10 s 1 w 1 d 0000000000000000
  ref 22: desc 2 node 20 s 1 w 1 d 0000000000000000
  ref 23: desc 3 node 21 s 1 w 1 d 0000000000000000
";

    fn state_of(text: &str) -> State {
        state::read(&mut Lines::new(Box::new(text.as_bytes()))).expect("a state")
    }

    fn said(text: &str) -> Said {
        let mut said = Said::default();
        said.read(&mut Lines::new(Box::new(text.as_bytes()))).expect("names");
        said
    }

    const SAID: &str = "\
0\talpha: [a.IAlpha]
1\tmanager: [android.os.IServiceManager]
DUMP OF SERVICE alpha:
7
DUMP OF SERVICE beta:
8
DUMP OF SERVICE gamma:
9
";

    fn names(said: &Said, registered: &Registered, state: &State) -> Vec<(u64, u32, String, Option<String>)> {
        let found = tied(said, registered, Some(state), &[]);
        let mut found: Vec<_> =
            found.into_iter().map(|(node, it)| (node, it.owner, it.service, it.interface)).collect();
        found.sort();
        found
    }

    fn wanted(node: u64, owner: u32, service: &str, interface: &str) -> (u64, u32, String, Option<String>) {
        (node, owner, service.into(), Some(interface.to_string()).filter(|it| !it.is_empty()))
    }

    /// beta may be either of two nodes, and gamma's process has given the manager nothing.
    #[test]
    fn a_name_is_tied_where_one_node_alone_can_be_meant() {
        let found = names(&said(SAID), &Registered::default(), &state_of(STATE));
        let manager = wanted(1, 5, "manager", "android.os.IServiceManager");
        assert_eq!(found, [manager, wanted(10, 7, "alpha", "a.IAlpha")]);
    }

    #[test]
    fn what_was_seen_being_registered_is_tied_by_its_ptr() {
        let mut registered = Registered::default();
        registered.objects.insert((8, 0x2100), "beta".into());
        registered.objects.insert((7, 0x2000), "elsewhere".into());
        let found = names(&Said::default(), &registered, &state_of(STATE));
        assert_eq!(found, [wanted(1, 5, "manager", ""), wanted(21, 8, "beta", "")]);
    }

    /// Names of one process are one node's, where the manager holds no other; they have an interface where they agree.
    #[test]
    fn several_names_of_one_node_are_told_together() {
        let both = "DUMP OF SERVICE alpha:\n7\nDUMP OF SERVICE alias:\n7\n";
        let of = |list: &str| names(&said(&format!("{both}{list}")), &Registered::default(), &state_of(STATE));
        assert_eq!(of("0\talpha: [a.IAlpha]\n1\talias: [a.IAlpha]\n")[1], wanted(10, 7, "alias, alpha", "a.IAlpha"));
        assert_eq!(of("0\talpha: [a.IAlpha]\n1\talias: [a.IOther]\n")[1], wanted(10, 7, "alias, alpha", ""));
    }

    /// Services of vndbinder's manager are others.
    #[test]
    fn a_context_that_nobody_asked_for_names_gets_none() {
        let other = STATE.replace("context binder", "context vndbinder").replacen("binder state:", "", 1);
        let both = format!(
            "{STATE}{}",
            other
                .replace("proc 5\n", "proc 6\n")
                .replace("proc 7\n", "proc 17\n")
                .replace(" 1:", " 101:")
                .replace("node 1 ", "node 101 ")
        );
        let said = said("DUMP OF SERVICE alpha:\n17\n");
        let found = tied(&said, &Registered::default(), Some(&state_of(&both)), &[]);
        assert!(found.values().all(|it| it.service == "manager"), "{found:?}");
        assert_eq!(found.len(), 2);
    }

    /// A log tells the manager too, but not one that has ended.
    #[test]
    fn a_log_tells_whom_handle_0_led_to() {
        let line = "1: call  from 7:7 to 5:0 context binder node 1 handle 0 size 0:0 ret 0/0 l=0\n\
            2: call  from 7:7 to 4:0 context binder node 77 handle 0 size 0:0 ret 0/0 l=0\n";
        let log = log::read(&mut Lines::new(Box::new(line.as_bytes()))).expect("a log");
        let without = state_of(&STATE.replace("  ref 31: desc 0 node 1 s 1 w 1 d 0000000000000000\n", ""));
        let of = |log: &[Entry]| tied(&Said::default(), &Registered::default(), Some(&without), log);
        assert!(of(&[]).is_empty());
        assert_eq!(of(&log).keys().collect::<Vec<_>>(), [&1]);
        assert_eq!(tied(&Said::default(), &Registered::default(), None, &log).len(), 2);
    }
}
