// SPDX-License-Identifier: Apache-2.0 OR MIT
//! Is there an order of all threads' steps, one that keeps each thread's own order and the clock, in which the rules give each answer
//! that the driver gave?
//!
//! A step may come next if all before it of its thread are made, and no step that isn't made ended before it began. The likeliest is
//! made first. Where nothing can be made, one goes back a little and follows several orders at once, the likeliest of them, of which
//! those that come to the same are one; where that leads nowhere, back further, with more of them.
use super::lessons::Lessons;
use super::machine::{is_made, Machine};
use super::steps::*;
use super::Bound;
use crate::rules::{Space, Ways};
use std::collections::{HashMap, HashSet};

/// How many steps one goes back at first, and how many orders are followed then; each time it leads nowhere it is so many times more.
const BACK: usize = 12;
const BACK_MORE: usize = 2;
const WIDTH: usize = 6;
const WIDTH_MORE: usize = 3;
const MOST_WIDTH: usize = 1500;
/// How many of the latest steps can be gone back.
const KEPT: usize = 3000;

/// A state that an order of so many steps has come to.
#[derive(Clone)]
struct Node {
    space: Space,
    /// How many steps of each track are made.
    done: Vec<u32>,
    /// How unlikely its order is.
    cost: u32,
}

/// Which node of the level before it comes from, by a step of which track.
#[derive(Clone, Copy)]
struct Origin {
    parent: u32,
    track: u32,
}

/// How a search ended.
pub struct Outcome {
    /// The tracks whose steps come one after the other; None where no order was found.
    pub order: Option<Vec<u32>>,
    /// Whether there is none: all were tried.
    pub is_none: bool,
    pub tries: u64,
    /// How many steps were in the longest order, and how many times one went back.
    pub most: usize,
    pub backs: u64,
    pub lessons: u64,
    /// Of the longest order, what each track would have to do next.
    pub stuck: Vec<String>,
}

/// How wide a search goes, and how far.
struct Pace {
    width: usize,
    /// How often it has gone back from about the same place.
    rung: u32,
    /// From which length on only the likeliest order is followed again.
    goal: usize,
    last_end: usize,
}

pub struct Search<'a> {
    machine: Machine<'a>,
    levels: Vec<Vec<Node>>,
    origins: Vec<Vec<Origin>>,
    /// The first level whose nodes are still there.
    first: usize,
    tries: u64,
    bound: Bound,
    stuck: Vec<String>,
    most: usize,
    /// What was learned: which steps have to wait for which; and what was learned wrongly.
    learned: HashMap<u64, Vec<u64>>,
    refuted: HashSet<(u64, u64)>,
    lessons: u64,
}

impl<'a> Search<'a> {
    pub fn new(recording: &'a Recording, ways: Ways, bound: Bound) -> Search<'a> {
        let root = Node { space: Space::new(ways), done: vec![0; recording.tracks.len()], cost: 0 };
        Search {
            machine: Machine::new(recording),
            levels: vec![vec![root]],
            origins: vec![Vec::new()],
            first: 0,
            tries: 0,
            bound,
            stuck: Vec::new(),
            most: 0,
            learned: HashMap::new(),
            refuted: HashSet::new(),
            lessons: 0,
        }
    }

    /// The tracks whose next step may come next by the clock and could be made, the likeliest first.
    fn candidates(&self, node: &Node, heeds: bool) -> Vec<(u64, usize)> {
        let heads = || self.machine.heads(&node.done);
        let bound = heads().map(|it| it.1.end).min().unwrap_or(NEVER);
        let is_held = |it: &(usize, &Step)| {
            let number = step_number(it.0, node.done[it.0] as usize);
            self.machine.waits_for_fact(&node.done, number) || heeds && self.waits(node, number)
        };
        let may_be =
            |it: &(usize, &Step)| it.1.begin <= bound && self.machine.could_be(&node.space, &node.done, it.0, it.1);
        let at = |step: &Step| match step.act {
            Act::End => NEVER,
            Act::Finish | Act::EndPart(_) => 0,
            _ => step.at,
        };
        let mut found: Vec<_> =
            heads().filter(may_be).filter(|it| !is_held(it)).map(|(track, step)| (at(step), track)).collect();
        found.sort_unstable();
        found
    }

    fn made(&mut self, node: &Node, track: usize) -> Option<Node> {
        self.tries += 1;
        let step = self.machine.step(track, node.done[track])?;
        let mut space = node.space.clone();
        self.machine.make(&mut space, &node.done, track, step)?;
        let mut done = node.done.clone();
        done[track] += 1;
        Some(Node { space, done, cost: node.cost })
    }

    /// The likeliest step of a node, made.
    fn advance(&mut self, node: &Node) -> Option<(Node, usize)> {
        for (_, track) in self.candidates(node, true) {
            if let Some(next) = self.made(node, track) {
                return Some((next, track));
            }
        }
        None
    }

    /// What all nodes of the latest level come to by one step more: so many of the likeliest, of those that come to the same one.
    fn widen(&mut self, width: usize) -> (Vec<Node>, Vec<Origin>) {
        let level = std::mem::take(self.levels.last_mut().expect("a level"));
        let mut found: Vec<(Node, Origin)> = Vec::new();
        let mut known: HashMap<Vec<u32>, Vec<usize>> = HashMap::new();
        for (parent, node) in level.iter().enumerate() {
            let (mut first, mut place) = (None, 0);
            for (at, track) in self.candidates(node, false) {
                let mut next = match self.made(node, track) {
                    Some(next) => next,
                    None => continue,
                };
                let first = *first.get_or_insert(at);
                next.cost += if place == 0 { 0 } else { 2 + (at.saturating_sub(first) / 50_000).min(8) as u32 };
                place += 1;
                let origin = Origin { parent: parent as u32, track: track as u32 };
                let same = known.entry(next.done.clone()).or_default();
                match same.iter().find(|it| found[**it].0.space == next.space) {
                    Some(it) if found[*it].0.cost <= next.cost => {}
                    Some(it) => found[*it] = (next, origin),
                    None => {
                        same.push(found.len());
                        found.push((next, origin));
                    }
                }
            }
        }
        *self.levels.last_mut().expect("a level") = level;
        found.sort_by_key(|it| it.0.cost);
        found.truncate(width);
        found.into_iter().unzip()
    }

    fn push(&mut self, nodes: Vec<Node>, origins: Vec<Origin>) {
        self.levels.push(nodes);
        self.origins.push(origins);
        if self.levels.len() - self.first > KEPT {
            self.levels[self.first] = Vec::new();
            self.first += 1;
        }
    }

    fn is_over(&self) -> bool {
        self.tries > self.bound.tries || self.bound.is_late()
    }

    fn waits(&self, node: &Node, number: u64) -> bool {
        self.learned.get(&number).map_or(false, |it| it.iter().any(|it| !is_made(&node.done, *it)))
    }

    /// Whether one step has to wait for another, by what was learned or by its thread.
    fn follows(&self, one: u64, other: u64) -> bool {
        let (mut left, mut seen) = (vec![one], HashSet::new());
        while let Some(it) = left.pop() {
            if it >> 32 == other >> 32 && it >= other {
                return true;
            }
            if seen.insert(it) && seen.len() < 2000 {
                let of_track = |late: &u64| *late >> 32 == it >> 32 && *late <= it && it - *late < 64;
                left.extend(self.learned.iter().filter(|(late, _)| of_track(late)).flat_map(|it| it.1.iter().copied()));
            }
        }
        false
    }

    /// At which level a step was made, and by which node there.
    fn place_of(&self, number: u64) -> Option<(usize, usize)> {
        let (track, index) = ((number >> 32) as u32, number as u32);
        let mut at = 0;
        let mut count = self.levels.last()?.first()?.done[track as usize];
        for level in (self.first.max(1)..self.levels.len()).rev() {
            let origin = self.origins[level][at];
            at = origin.parent as usize;
            if origin.track == track {
                count -= 1;
                if count == index {
                    return Some((level - 1, at)).filter(|it| it.0 >= self.first);
                }
            }
        }
        None
    }

    /// Learns from where no order goes on, and goes back to before the step that came too early.
    fn learn(&mut self) -> bool {
        let node = match self.levels.last().and_then(|it| it.first()) {
            Some(node) => node,
            None => return false,
        };
        let heads = || self.machine.heads(&node.done);
        let bound = heads().map(|it| it.1.end).min().unwrap_or(NEVER);
        let mut pressing: Vec<(usize, &Step)> = heads().filter(|it| it.1.begin <= bound).collect();
        pressing.sort_by_key(|it| it.1.end);
        let mut lessons = Lessons { machine: &self.machine, space: &node.space, done: &node.done, found: Vec::new() };
        lessons.learn(&pressing);
        let found = lessons.found;
        let done = node.done.clone();
        found.into_iter().any(|(late, early)| self.take_lesson(&done, late, early))
    }

    fn take_lesson(&mut self, done: &[u32], late: u64, early: u64) -> bool {
        let is_known = self.learned.get(&late).map_or(false, |it| it.contains(&early));
        if is_known || late >> 32 == early >> 32 || self.refuted.contains(&(late, early)) || self.follows(early, late) {
            return false;
        }
        if is_made(done, late) {
            let (level, at) = match self.place_of(late) {
                Some(place) => place,
                None => return false,
            };
            self.levels.truncate(level + 1);
            self.origins.truncate(level + 1);
            let node = self.levels[level].swap_remove(at);
            let origin = if level > 0 { Some(self.origins[level][at]) } else { None };
            self.levels[level] = vec![node];
            self.origins[level] = origin.into_iter().collect();
        } else if is_made(done, early) {
            return false;
        }
        self.learned.entry(late).or_default().push(early);
        self.lessons += 1;
        true
    }

    /// Forgets what holds a step back though nothing else can be made.
    fn unlearn(&mut self) -> bool {
        let done = match self.levels.last().and_then(|it| it.first()) {
            Some(node) => node.done.clone(),
            None => return false,
        };
        for (track, index) in done.iter().enumerate() {
            let late = step_number(track, *index as usize);
            if let Some(all) = self.learned.get_mut(&late) {
                let held: Vec<u64> = all.iter().copied().filter(|it| !is_made(&done, *it)).collect();
                if !held.is_empty() {
                    all.retain(|it| !held.contains(it));
                    self.refuted.extend(held.into_iter().map(|it| (late, it)));
                    return true;
                }
            }
        }
        false
    }

    fn tell_stuck(&mut self) {
        let length = self.levels.len() - 1;
        if length < self.most || !self.stuck.is_empty() && length == self.most {
            return;
        }
        self.most = length;
        if let Some(node) = self.levels.last().and_then(|it| it.first()) {
            self.stuck = super::told::heads(&self.machine, &node.space, &node.done);
        }
    }

    pub fn run(mut self) -> Outcome {
        let (mut pace, mut backs) = (Pace { width: 1, rung: 0, goal: 0, last_end: 0 }, 0);
        loop {
            let level = self.levels.last().expect("a level");
            if let Some(at) = level.iter().position(|it| self.machine.is_over(&it.done)) {
                return self.outcome(Some(at), backs);
            }
            if self.goes_on(&mut pace) {
                if pace.width > 1 && self.is_over() {
                    return self.outcome(None, backs);
                }
                continue;
            }
            // No order goes on from here.
            self.tell_stuck();
            backs += 1;
            let learns = pace.width == 1 && !self.is_over() && (self.learn() || self.unlearn());
            if !learns && !self.goes_back(&mut pace) {
                return self.outcome(None, backs);
            }
        }
    }

    /// Makes one step more: whether there is one.
    fn goes_on(&mut self, pace: &mut Pace) -> bool {
        if pace.width == 1 && self.levels.last().map_or(false, |it| it.len() == 1) {
            let node = self.levels.last_mut().and_then(|it| it.pop()).expect("a node");
            let next = self.advance(&node);
            self.levels.last_mut().expect("a level").push(node);
            return next.map_or(false, |(next, track)| {
                self.push(vec![next], vec![Origin { parent: 0, track: track as u32 }]);
                true
            });
        }
        let (mut nodes, mut origins) = self.widen(pace.width);
        if nodes.is_empty() {
            return false;
        }
        if self.levels.len() > pace.goal {
            pace.width = 1;
            nodes.truncate(1);
            origins.truncate(1);
        }
        self.push(nodes, origins);
        true
    }

    /// Goes back further than before, to follow more orders from there: whether there are more to be tried.
    fn goes_back(&mut self, pace: &mut Pace) -> bool {
        let end = self.levels.len() - 1;
        pace.rung = if end > pace.last_end + 2 * BACK { 0 } else { pace.rung + 1 };
        pace.last_end = pace.last_end.max(end);
        let back = BACK.saturating_mul(BACK_MORE.saturating_pow(pace.rung));
        let width = WIDTH.saturating_mul(WIDTH_MORE.saturating_pow(pace.rung));
        let to = end.saturating_sub(back).max(self.first);
        let is_last = width > MOST_WIDTH && (to == self.first || back > KEPT) || end == 0;
        pace.width = width.min(MOST_WIDTH);
        if is_last || self.is_over() {
            return false;
        }
        pace.goal = pace.last_end + BACK;
        self.levels.truncate(to + 1);
        self.origins.truncate(to + 1);
        true
    }

    /// Follows all orders at once, of which those that come to the same are one: so it is known where there is none. They may become
    /// more than `most`; then nothing is known.
    pub fn exhaust(mut self, most: usize) -> Outcome {
        loop {
            let level = self.levels.last().expect("a level");
            if let Some(at) = level.iter().position(|it| self.machine.is_over(&it.done)) {
                return self.outcome(Some(at), 0);
            }
            let is_over = level.is_empty();
            if is_over || level.len() > most || self.is_over() {
                return Outcome { is_none: is_over, ..self.outcome(None, 0) };
            }
            let (nodes, origins) = self.widen(usize::MAX);
            if nodes.is_empty() {
                self.tell_stuck();
            }
            self.levels.push(nodes);
            self.origins.push(origins);
            self.levels[self.first] = Vec::new();
            self.first += 1;
        }
    }

    fn outcome(self, last: Option<usize>, backs: u64) -> Outcome {
        let order = last.map(|mut at| {
            let mut order: Vec<u32> = Vec::with_capacity(self.origins.len());
            for level in self.origins[1..].iter().rev() {
                order.push(level[at].track);
                at = level[at].parent as usize;
            }
            order.reverse();
            order
        });
        let most = order.as_ref().map_or(self.most, Vec::len);
        let (tries, lessons, stuck) = (self.tries, self.lessons, self.stuck);
        Outcome { order, is_none: false, tries, most, backs, lessons, stuck }
    }
}
