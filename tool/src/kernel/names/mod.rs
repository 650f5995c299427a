// SPDX-License-Identifier: Apache-2.0 OR MIT
//! What services are called, which no kernel tells: from what the user gives besides, tied to nodes where only one can be meant.
pub mod registered;
pub mod said;
mod tied;

use super::lines::Lines;
use super::log::Entry;
use super::look;
use super::state::State;
use crate::judging::files::THREAD_MARK;
use crate::play::name;
use anyhow::{bail, Context, Result};
use registered::Registered;
use said::Said;
use std::cell::Cell;
use std::collections::{BTreeSet, HashMap};
use std::fs::File;
use std::io::{BufReader, Read};
use std::path::Path;
pub use tied::Named;

/// All that the user has given.
#[derive(Debug, Default)]
struct Names {
    said: Said,
    registered: Registered,
    nodes: HashMap<u64, Named>,
}

thread_local! {
    static NAMES: Cell<Option<&'static Names>> = const { Cell::new(None) };
}

fn all() -> Option<&'static Names> {
    NAMES.with(Cell::get)
}

/// Whether it is what `hullpippin record` has left.
fn is_recording(path: &str) -> Result<bool> {
    if Path::new(path).is_dir() {
        return Ok(true);
    }
    let mut head = Vec::new();
    File::open(path)?.take(THREAD_MARK.len() as u64).read_to_end(&mut head)?;
    if head.starts_with(b"BNDJ") {
        bail!("a journal names its own objects, and none of a kernel's");
    }
    Ok(head == THREAD_MARK)
}

impl Names {
    /// Takes a file; one of a kernel's moments is for later, when all names are known.
    fn add(&mut self, path: &str) -> Result<Option<look::Look>> {
        if path == "-" {
            bail!("names are read from a file");
        }
        if is_recording(path)? {
            self.registered.add(path)?;
            return Ok(None);
        }
        let look = look::of_path(path)?;
        if look.is_none() {
            let file = BufReader::with_capacity(1 << 16, File::open(path)?);
            self.said.read(&mut Lines::new(Box::new(file)))?;
        }
        Ok(look)
    }

    fn tied(&self, state: Option<&State>, log: &[Entry]) -> HashMap<u64, Named> {
        let mut nodes = self.nodes.clone();
        nodes.extend(tied::tied(&self.said, &self.registered, state, log));
        nodes
    }
}

/// Has services be called by the names that these files give, from now on.
pub fn want(paths: &[String]) -> Result<()> {
    let (mut names, mut looks) = (Names::default(), Vec::new());
    for path in paths {
        looks.extend(names.add(path).with_context(|| name(path))?);
    }
    for look in &looks {
        let (state, log) = look.told_of_nodes();
        let nodes = names.tied(state, log);
        names.nodes.extend(nodes);
    }
    let names: &'static Names = Box::leak(Box::new(names));
    NAMES.with(|it| it.set(Some(names)));
    Ok(())
}

/// The names of the nodes of one moment; the manager's is known without the user.
pub fn of_moment(state: Option<&State>, log: &[Entry]) -> HashMap<u64, Named> {
    let mut nodes = all().map_or_else(|| Names::default().tied(state, log), |it| it.tied(state, log));
    // Another boot's nodes have these numbers too, but other owners.
    if let Some(state) = state.filter(|it| it.is_whole) {
        nodes.retain(|node, it| state.processes.iter().any(|process| process.pid == it.owner && process.has(*node)));
    }
    nodes
}

/// What a node is called whose owner is this process.
pub fn of_node(node: u64, owner: u32) -> Option<&'static Named> {
    all()?.nodes.get(&node).filter(|it| it.owner == owner)
}

/// What an object is called that a thread hands over by this ptr; and whose it is, where a recording knows better.
pub fn of_object(tid: u32, pid: Option<u32>, ptr: u64) -> Option<Named> {
    let names = all()?;
    let owner = pid.or_else(|| names.registered.processes.get(&tid).copied())?;
    let service = names.registered.objects.get(&(owner, ptr))?.clone();
    let interface = names.said.services.get(&service).cloned().flatten();
    Some(Named { owner, service, interface })
}

/// Says which of the names that the user gave are tied to no node.
pub fn say<'a>(path: &str, tied: impl Iterator<Item = &'a str>) {
    let names = match all() {
        Some(names) => names,
        None => return,
    };
    let tied: BTreeSet<&str> = tied.flat_map(|it| it.split(", ")).collect();
    let given = names.said.services.keys().chain(names.registered.objects.values());
    let given: BTreeSet<&str> = given.map(|it| &**it).collect();
    let left: Vec<&str> = given.difference(&tied).copied().collect();
    const SHOWN: usize = 3;
    if !left.is_empty() {
        let (of, count, more) = (given.len(), left.len(), if left.len() > SHOWN { ", .." } else { "" });
        let left = left[..count.min(SHOWN)].join(", ");
        eprintln!(
            "hullpippin: {path}: of {of} services' names {count} are tied to no node, since nothing tells which node is meant: {left}{more}"
        );
    }
}
