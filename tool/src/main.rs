// SPDX-License-Identifier: Apache-2.0 OR MIT
//! `hullpippin` looks at recordings of Binder's transactions. It proves and judges nothing: `bplay` does.
#![warn(rust_2018_idioms)]
#![cfg_attr(feature = "fuzz", no_main)]
// What only a feature uses is read all the same, so that it needn't be named where that stands. What nothing calls isn't compiled.
#![cfg_attr(
    any(feature = "fuzz", not(all(feature = "repl", feature = "top", feature = "whole"))),
    allow(dead_code, unused_imports)
)]

mod aidl;
mod arguments;
mod beside;
mod calls;
mod chronicle;
mod codes;
mod diagram;
#[cfg(test)]
mod documents;
mod explain;
mod export;
mod following;
#[cfg(feature = "fuzz")]
mod fuzz;
mod holders;
mod index;
mod journal;
mod json;
mod judge;
mod judging;
mod kernel;
mod live;
mod mail;
mod order;
mod out;
mod parcel;
mod play;
mod progress;
mod record;
mod refusals;
mod rules;
mod script;
mod select;
mod sequence;
mod show;
mod source;
mod state;
mod stats;
mod times;
mod told;
mod who;
mod wrapped;

use anyhow::{bail, Context, Error, Result};
use arguments::{
    Arguments, Called, Diagram, Drawn, Explain, Export, Form, Format, Holders, Leaks, Rules, Script, Show, Slow, State,
    Stats, Word,
};
#[cfg(feature = "completions")]
use clap::CommandFactory;
use clap::Parser;
use live::trace::Trace;
use out::{Out, Palette};
use play::{Nothing, Player};
use script::Setting;
use show::Style;
use std::fs::File;
use std::io::{self, BufRead, BufReader, Read, Write};
use std::path::Path;
use std::process::ExitCode;

fn show(given: &Show, out: &mut Out, style: &Style) -> Result<()> {
    let mut player = Player::open(&given.journal, given.follow)?;
    if given.judge {
        player.judge()?;
    }
    if given.selection.is_by_name() {
        player.check_names()?;
    }
    let bounds = player.bounds(given.range)?;
    player.jump(bounds.from)?;
    let is_own = player.beside.own();
    let (mut shown, mut own) = (0u64, 0u64);
    player.each_within(&bounds, |seen| {
        let (entry, space, facts) = match seen {
            Some(seen) => seen,
            None => return Ok(out.flush()?),
        };
        if !given.selection.wants(entry, facts) {
            return Ok(());
        }
        if is_own.get() && !given.own {
            own += 1;
            return Ok(());
        }
        shown += 1;
        match given.format {
            Format::Text => show::put_entry(&mut out.held, style, entry, space, facts)?,
            Format::Json => json::put_entry(&mut out.held, given.bytes, entry, space, facts)?,
        }
        Ok(out.pass()?)
    })?;
    say_shown(given, shown, own)?;
    player.check_lawful()
}

/// Says what was left out; and that there was nothing, where something was chosen.
fn say_shown(given: &Show, shown: u64, own: u64) -> Result<()> {
    if own > 0 {
        eprintln!("hullpippin: {own} steps of the daemon's own are left out; --own shows them");
    }
    if shown == 0 && own == 0 && (given.selection.is_any() || given.range.is_any()) {
        return Err(Nothing { path: given.journal.clone(), what: "entry" }.into());
    }
    Ok(())
}

fn state(given: &State, out: &mut Out) -> Result<()> {
    let to = &mut out.held;
    let journal = match &given.journal {
        Some(journal) => journal,
        None => {
            let device = given.device.clone().unwrap_or_else(|| "/dev/binder".into());
            return live::state::put(to, &live::Where { socket: given.socket.clone(), device }, given.format);
        }
    };
    if let Some(look) = kernel::look::of_path(journal)? {
        return state_of_kernel(given, &look, to);
    }
    if !given.diff.is_empty() {
        let spots: Vec<play::Spot> =
            given.diff.iter().map(|it| it.parse()).collect::<Result<_, _>>().map_err(Error::msg)?;
        return match spots[..] {
            [before, after] => {
                let (before, after) = (state::at(journal, Some(before))?, state::at(journal, Some(after))?);
                Ok(state::put_difference(to, &before, &after)?)
            }
            _ => bail!("of a journal --diff takes two places or times"),
        };
    }
    let player = state::at(journal, given.at)?;
    match given.format {
        Format::Text => Ok(state::put_text(to, &player)?),
        Format::Json => state::put_json(to, &player),
    }
}

/// What a kernel's file of one moment tells, or what differs in a later one.
fn state_of_kernel(given: &State, look: &kernel::look::Look, to: &mut Vec<u8>) -> Result<()> {
    if given.at.is_some() || given.format == Format::Json {
        bail!("a kernel's file tells of one moment, as text: --at and --format are for journals");
    }
    match &given.diff[..] {
        [] => look.put_state(to),
        [later] => look.put_difference(to, &later_look(later)?),
        _ => bail!("of a kernel's file --diff takes one later file"),
    }
}

fn later_look(path: &str) -> Result<kernel::look::Look> {
    match kernel::look::of_path(path)? {
        Some(look) => Ok(look),
        None => bail!("{path}: this is no state of a kernel's, and the file before it is one"),
    }
}

fn leaks(given: &Leaks, out: &mut Out) -> Result<()> {
    if let Some(look) = kernel::look::of_path(&given.journal)? {
        let later = given.later.as_deref().map(later_look).transpose()?;
        return look.put_leaks(&mut out.held, later.as_ref(), given.most);
    }
    if let Some(later) = &given.later {
        bail!("{later}: a journal is looked at from its beginning to its end, so there is no later file");
    }
    let mut player = Player::open(&given.journal, false)?;
    let at = given.at.map(|it| player.place(it)).transpose()?;
    holders::put_leaks(&mut out.held, &mut player, at, given.most)
}

fn explain(given: &Explain, out: &mut Out, style: &Style) -> Result<()> {
    let (to, what, format) = (&mut out.held, &given.what, given.format);
    if what == "-" || Path::new(what).exists() {
        if let Some(look) = kernel::look::of_path(what)? {
            return look.put_refusals(to, given.kernel.as_deref());
        }
    }
    let telling = explain::Telling { style, format, path: what };
    match given.place {
        Some(place) => telling.put_entry_at(to, place),
        None if explain::put_name(to, format, what)? => Ok(()),
        None if what == "-" || Path::new(what).exists() => telling.put_verdict(to),
        None => bail!(
            "nothing is called {what}, and there is no such file: there are F1 to F16, X1 to X16 and N1 to N11, also by names as \
             BadObject, and returns as BR_FAILED_REPLY; of a journal an entry is explained by its place: explain JOURNAL PLACE"
        ),
    }
}

fn holders(given: &Holders, out: &mut Out) -> Result<()> {
    if let Some(look) = kernel::look::of_path(&given.journal)? {
        return look.put_holders(&mut out.held, given.object);
    }
    if kernel::is_node(given.object) {
        bail!("a journal has no nodes: an object is PLACE.INDEX, as 3.0, what `state` prints");
    }
    holders::put_holders(&mut out.held, &state::at(&given.journal, given.at)?.space, given.object)
}

/// The calls of a journal or of a kernel's trace.
fn calls(given: &Called, palette: Palette, out: &mut Out) -> Result<()> {
    #[cfg(feature = "whole")]
    {
        if let Some(look) = kernel::look::of_path(&given.journal)? {
            return look.put_log(&mut out.held);
        }
        if let Some(mut trace) = kernel::trace_of(&given.journal)? {
            let lines = chronicle::put_trace(&mut trace, given.range, &given.wanted, palette, out)?;
            return check_any(given, lines);
        }
    }
    let mut player = Player::open(&given.journal, false)?;
    let lines = chronicle::put_journal(&mut player, given.range, &given.wanted, palette, out)?;
    check_any(given, lines)
}

/// Says that there was no call, where some were chosen.
fn check_any(given: &Called, lines: u64) -> Result<()> {
    if lines == 0 && (given.wanted.is_any() || given.range.is_any()) {
        return Err(Nothing { path: given.journal.clone(), what: "call" }.into());
    }
    Ok(())
}

/// `trace` of a file: its calls.
fn trace_file(path: &str, wanted: &told::Wanted, palette: Palette, out: &mut Out) -> Result<()> {
    let given = Called { journal: path.into(), range: play::Range::default(), wanted: wanted.clone() };
    calls(&given, palette, out)
}

fn stats(given: &Stats, out: &mut Out) -> Result<()> {
    if let Some(look) = kernel::look::of_path(&given.journal)? {
        return look.put_counts(&mut out.held);
    }
    match kernel::trace_of(&given.journal)? {
        Some(mut trace) => stats::stats_of_trace(&mut trace, given.range, &mut out.held),
        None => stats::stats(&mut Player::open(&given.journal, false)?, given.range, &mut out.held),
    }
}

fn slow(given: &Slow, out: &mut Out) -> Result<()> {
    match kernel::trace_of(&given.journal)? {
        Some(mut trace) => stats::slow_of_trace(&mut trace, given.range, given.most, &mut out.held),
        None => stats::slow(&mut Player::open(&given.journal, false)?, given.range, given.most, &mut out.held),
    }
}

fn export(given: &Export, out: &mut Out) -> Result<()> {
    if let Some(mut trace) = kernel::trace_of(&given.journal)? {
        return match given.format {
            Form::Perfetto => export::perfetto::export_trace(&mut trace, given.span.range(), out),
            Form::Pcapng => {
                bail!("{}: a kernel's trace has no bytes of commands, so no packets", play::name(&given.journal))
            }
        };
    }
    let mut player = Player::open(&given.journal, false)?;
    match given.format {
        Form::Perfetto => export::perfetto::export(&mut player, given.span.range(), out),
        Form::Pcapng => export::pcapng::export(&mut player, given.span.range(), out),
    }
}

fn draw(given: &Diagram, out: &mut Out) -> Result<()> {
    if let Some(mut trace) = kernel::trace_of(&given.journal)? {
        return match given.format {
            Drawn::Html => diagram::put_trace(&mut trace, given.range, out),
            form => sequence::put_trace(&mut trace, given.range, form, out),
        };
    }
    let mut player = Player::open(&given.journal, false)?;
    match given.format {
        Drawn::Html => diagram::put(&mut player, given.range, out),
        form => sequence::put(&mut player, given.range, form, out),
    }
}

fn script(given: &Script, out: &mut Out) -> Result<()> {
    let (player, journal) = (given.run.as_deref(), given.journal.as_deref());
    let emit = given.emit.as_deref();
    let as_json = given.format == Format::Json;
    let asked = script::Asked { path: &given.file, player, turns: given.turns, journal, emit, as_json };
    script::script(&asked, &mut out.held)
}

fn play_rules(given: &Rules, out: &mut Out) -> Result<()> {
    let ways = rules::dialogue::ways_of(&given.ways)?;
    let file = || File::open(&given.file).with_context(|| given.file.clone());
    let mut from: Box<dyn Read> = if given.file == "-" { Box::new(io::stdin()) } else { Box::new(file()?) };
    if given.format == Format::Json {
        return talk_rules(ways, BufReader::new(from), out);
    }
    let mut text = String::new();
    from.read_to_string(&mut text).with_context(|| given.file.clone())?;
    out.held.extend(rules::script::played(&text, ways)?.bytes());
    Ok(())
}

/// Answers each line at once.
fn talk_rules(ways: rules::Ways, from: impl BufRead, out: &mut Out) -> Result<()> {
    let mut dialogue = rules::dialogue::Dialogue::new(ways);
    for (index, line) in from.lines().enumerate() {
        if let Some(value) = dialogue.answer(&line?).with_context(|| format!("line {}", index + 1))? {
            writeln!(out.held, "{value}")?;
            out.flush()?;
        }
    }
    Ok(())
}

/// The status with which it ends.
fn run(arguments: &mut Arguments, out: &mut Out) -> Result<u8> {
    prepare(arguments)?;
    match &arguments.word {
        #[cfg(feature = "whole")]
        Word::Trace(given) if given.kernel => live::kernel::trace(given, Palette::new(arguments.color)).map(|()| 0),
        Word::Trace(Trace { file: Some(file), wanted, .. }) => {
            trace_file(file, wanted, Palette::new(arguments.color), out).map(|()| 0)
        }
        Word::Trace(given) => live::trace::trace(given, Palette::new(arguments.color)),
        #[cfg(feature = "top")]
        Word::Top(given) => live::top::top(given).map(|()| 0),
        Word::Show(given) => show(given, out, &style_of(arguments, given.bytes)).map(|()| 0),
        Word::Calls(given) => calls(given, Palette::new(arguments.color), out).map(|()| 0),
        #[cfg(feature = "whole")]
        Word::Judge(given) => judging::judge(given, &mut out.held),
        #[cfg(feature = "whole")]
        Word::Record(given) => judging::recorder::record(given, &mut out.held),
        #[cfg(feature = "whole")]
        _ => look(arguments, out).map(|()| 0),
        #[cfg(not(feature = "whole"))]
        _ => bail!(LEFT_OUT),
    }
}

/// Takes what a recording is looked at by, and what things are called.
#[cfg(feature = "whole")]
fn prepare(arguments: &mut Arguments) -> Result<()> {
    if let Some(path) = arguments.word.journal_mut() {
        if let Some(order) = judging::shown_by(path)? {
            *path = order;
        }
    }
    if let Some(folder) = &arguments.aidl {
        aidl::want(folder)?;
    }
    if !arguments.names.is_empty() {
        kernel::names::want(&arguments.names)?;
    }
    Ok(())
}

/// What a build without its features says of all that it can't.
#[cfg(not(feature = "whole"))]
const LEFT_OUT: &str =
    "this is what ./try builds, which has show, calls and trace of journals and daemons alone: tool/setup builds all";

/// Sees that nothing is asked for that isn't there.
#[cfg(not(feature = "whole"))]
fn prepare(arguments: &mut Arguments) -> Result<()> {
    let is_of_kernel = matches!(&arguments.word, Word::Trace(given) if given.kernel);
    if is_of_kernel || arguments.aidl.is_some() || !arguments.names.is_empty() {
        bail!(LEFT_OUT);
    }
    Ok(())
}

fn style_of(arguments: &Arguments, bytes: usize) -> Style {
    Style { palette: Palette::new(arguments.color), bytes, row: parcel::row_for(out::width()) }
}

/// What else is looked at in journals, and what scripts come to.
#[cfg(feature = "whole")]
fn look(arguments: &Arguments, out: &mut Out) -> Result<()> {
    let style = |bytes| style_of(arguments, bytes);
    match &arguments.word {
        Word::Explain(given) => explain(given, out, &style(1024)),
        Word::State(given) => state(given, out),
        Word::Holders(given) => holders(given, out),
        Word::Leaks(given) => leaks(given, out),
        Word::Stats(given) => stats(given, out),
        Word::Slow(given) => slow(given, out),
        Word::Export(given) => export(given, out),
        Word::Diagram(given) => draw(given, out),
        Word::Index { journal } => index::make(journal),
        Word::Rules(given) => play_rules(given, out),
        Word::Script(given) => script(given, out),
        #[cfg(feature = "completions")]
        Word::Completions { shell } => {
            clap_complete::generate(*shell, &mut Arguments::command(), "hullpippin", &mut out.held);
            Ok(())
        }
        Word::Show(_) | Word::Calls(_) | Word::Trace(_) | Word::Judge(_) | Word::Record(_) => Ok(()),
        Word::KernelGuard { instance } => kernel::tracefs::guard(instance),
        #[cfg(feature = "top")]
        Word::Top(_) => Ok(()),
        #[cfg(feature = "repl")]
        Word::Repl { run, turns } => script::repl(Setting { player: run.clone(), turns: *turns }, style(1024)),
    }
}

/// Whether nobody reads on, which is no fault: `head` has enough.
fn is_closed_pipe(error: &anyhow::Error) -> bool {
    let io = error.chain().filter_map(|it| it.downcast_ref::<io::Error>());
    io.map(io::Error::kind).any(|it| it == io::ErrorKind::BrokenPipe)
}

fn main() -> ExitCode {
    let mut arguments = Arguments::parse();
    progress::want(arguments.progress);
    let mut out =
        Out::new(!arguments.no_pager && !arguments.progress && !arguments.follows() && !arguments.is_for_programs());
    let done = run(&mut arguments, &mut out);
    if matches!(&done, Err(error) if error.is::<Nothing>()) {
        out.held.clear(); // (a picture's frame, or calls that were open before: nothing that was asked for)
    }
    let closed = out.close().map_err(anyhow::Error::from);
    match done.and_then(|status| closed.map(|()| status)) {
        Ok(status) => ExitCode::from(status),
        Err(error) if is_closed_pipe(&error) => ExitCode::SUCCESS,
        Err(error) => {
            eprintln!("hullpippin: {error:#}");
            ExitCode::FAILURE
        }
    }
}
