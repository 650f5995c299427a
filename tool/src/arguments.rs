// SPDX-License-Identifier: Apache-2.0 OR MIT
//! The words of the command line.
use crate::following::ObjectId;
#[cfg(feature = "top")]
use crate::live::top::Top;
use crate::live::trace::Trace;
use crate::out::When;
use crate::play::{Range, Spot};
use crate::select::Selection;
use crate::times::TimeWord;
use crate::told::Wanted;
use clap::{Args, Parser, Subcommand, ValueEnum};

const EXAMPLES: &str = "\
Examples:
  hullpippin trace binder-list -d /dev/binder    runs a program, and prints each of its calls
  hullpippin calls FILE                          prints the calls of a recording, a line each
  hullpippin show --refused FILE                 prints what was refused, with its parcel
  hullpippin explain FILE 12                     tells why entry 12 got its answer
  hullpippin state FILE --at 12                  prints what each process had after 12 entries
  hullpippin diagram FILE > page.html            draws a recording, for a browser";

/// Shows Binder's transactions, recorded or live: what was sent, why it was refused, who holds what
#[derive(Parser)]
#[command(name = "hullpippin", version, max_term_width = 100, after_help = EXAMPLES)]
pub struct Arguments {
    /// When to use colours: auto does so on a terminal, unless NO_COLOR is set
    #[arg(long, global = true, value_enum, default_value = "auto", value_name = "WHEN")]
    pub color: When,
    /// Starts no pager on a terminal (HULLPIPPIN_PAGER, PAGER or less)
    #[arg(long, global = true)]
    pub no_pager: bool,
    /// Tells on standard error how far a journal is read, and starts no pager
    #[arg(long, global = true)]
    pub progress: bool,
    /// Names methods by the .aidl files in this folder, which must be those of the very build
    #[arg(long, global = true, value_name = "FOLDER")]
    pub aidl: Option<std::path::PathBuf>,
    /// Names a kernel's services by what a device prints (`service list`, `dumpsys --pid`), by its state or bug report, or by a
    /// recording; repeat it for more
    #[arg(long, global = true, value_name = "FILE")]
    pub names: Vec<String>,
    #[command(subcommand)]
    pub word: Word,
}

impl Arguments {
    /// Whether what is printed grows with the journal.
    pub fn follows(&self) -> bool {
        matches!(&self.word, Word::Show(Show { follow: true, .. }))
    }

    /// Whether no person would read it page by page: it is for a program, or for who types.
    pub fn is_for_programs(&self) -> bool {
        let is_live = match &self.word {
            Word::Trace(_) | Word::Record(_) | Word::KernelGuard { .. } => true,
            #[cfg(feature = "top")]
            Word::Top(_) => true,
            #[cfg(feature = "repl")]
            Word::Repl { .. } => true,
            #[cfg(feature = "completions")]
            Word::Completions { .. } => true,
            _ => false,
        };
        let is_text = matches!(&self.word, Word::Diagram(Diagram { format: Drawn::Text, .. }));
        is_live || !is_text && matches!(&self.word, Word::Export(_) | Word::Diagram(_) | Word::Script(_))
    }
}

#[derive(Clone, Copy, Debug, PartialEq, Eq, ValueEnum)]
pub enum Format {
    Text,
    Json,
}

#[derive(Subcommand)]
pub enum Word {
    /// Prints each call as it ends: of a program, of a daemon, or of Linux's own driver
    Trace(Trace),
    /// Shows who calls whom, how often and how long: in a daemon, or in Linux's driver
    #[cfg(feature = "top")]
    Top(Top),
    /// Prints the calls of a recording or of a kernel's trace, a line each
    Calls(Called),
    /// Prints entries, in the header's words, with their parcels
    Show(Show),
    /// Tells why an entry got its answer, or what a name such as BR_FAILED_REPLY means
    Explain(Explain),
    /// Prints what each process has at a place: handles, objects, buffers, what is unread
    State(State),
    /// Prints everything that holds an object
    Holders(Holders),
    /// Prints buffers that nobody frees, references asked for too often, and what grows
    Leaks(Leaks),
    /// Counts commands, returns, refusals, and calls by who calls whom with which code
    Stats(Stats),
    /// Prints the calls that took longest, and those still open
    Slow(Slow),
    /// Draws a recording: as a page of HTML, as a picture, for Mermaid, or for a terminal
    Diagram(Diagram),
    /// Writes a recording in the form of another program
    Export(Export),
    /// Writes JOURNAL.index, by which --from and --at start near their place
    Index {
        /// A journal
        #[arg(value_name = "JOURNAL")]
        journal: String,
    },
    /// Runs a program, and records what it and all that it starts ask of Binder devices
    Record(Record),
    /// Judges a recording of a real driver: whether some order of its steps explains it
    Judge(Judge),
    /// Turns a script with names into one for the player, or plays it
    Script(Script),
    /// Plays a script with names while you type it, and shows what comes of each line
    #[cfg(feature = "repl")]
    Repl {
        /// The player
        #[arg(long, value_name = "BPLAY", default_value = "bplay")]
        run: String,
        /// How often a line that waits may look before the run gives it up
        #[arg(long, value_name = "N", default_value_t = TURNS)]
        turns: u32,
    },
    /// Plays a plain script on the model of the rules, as the player would
    Rules(Rules),
    /// Ends a kernel's tracing once who has begun it has ended
    #[command(hide = true)]
    KernelGuard {
        #[arg(value_name = "INSTANCE")]
        instance: std::path::PathBuf,
    },
    /// Prints the completions for a shell
    #[cfg(feature = "completions")]
    #[command(hide = true)]
    Completions {
        /// The shell
        #[arg(value_enum)]
        shell: clap_complete::Shell,
    },
}

impl Word {
    /// The journal that it looks at, which may be a recording whose order is shown in its place.
    pub fn journal_mut(&mut self) -> Option<&mut String> {
        match self {
            Word::Show(it) => Some(&mut it.journal),
            Word::Explain(it) => Some(&mut it.what),
            Word::State(it) => it.journal.as_mut(),
            Word::Holders(it) => Some(&mut it.journal),
            Word::Leaks(it) => Some(&mut it.journal),
            Word::Calls(it) => Some(&mut it.journal),
            Word::Stats(it) => Some(&mut it.journal),
            Word::Slow(it) => Some(&mut it.journal),
            Word::Export(it) => Some(&mut it.journal),
            Word::Diagram(it) => Some(&mut it.journal),
            Word::Index { journal } => Some(journal),
            _ => None,
        }
    }
}

/// How many steps `judge` tries.
pub const TRIES: u64 = 1_500_000;
/// How often a line that waits may look before it is given up.
const TURNS: u32 = 1000;

#[derive(Args)]
pub struct Record {
    /// The folder to make for the recording
    #[arg(long, value_name = "FOLDER", default_value = "recording")]
    pub into: String,
    /// Leaves the kernel's tracepoints off, which cost the program time
    #[arg(long)]
    pub no_trace: bool,
    /// The program, and its words
    #[arg(value_name = "PROGRAM", required = true, trailing_var_arg = true, allow_hyphen_values = true)]
    pub program: Vec<String>,
}

#[derive(Args)]
pub struct Judge {
    /// What `record` has left: a folder, or one file of it
    #[arg(value_name = "RECORDING")]
    pub recording: String,
    /// The device; else the one that most processes have opened
    #[arg(long, value_name = "PATH")]
    pub device: Option<String>,
    /// Writes the order there as a journal, with times and names beside it
    #[arg(long, value_name = "OUT")]
    pub journal: Option<String>,
    /// The differences of docs/DIFFERENCES.md that the driver may show, with commas between them; else `judge` finds them
    #[arg(long, value_name = "NAMES")]
    pub ways: Option<String>,
    /// How many steps to try before it gives up
    #[arg(long, value_name = "N", default_value_t = TRIES)]
    pub tries: u64,
    /// .. and how many seconds of a processor, with as many more for each 10,000 steps [default: 5]
    #[arg(long, value_name = "S")]
    pub seconds: Option<f64>,
    /// If it finds no order: of how many threads to tell what they would have to do next
    #[arg(long, value_name = "N", default_value_t = 8)]
    pub most: usize,
}

#[derive(Args)]
pub struct Rules {
    /// A script as the player takes it, perhaps with reads that wait (`wait LIMIT`); - for standard input
    #[arg(value_name = "SCRIPT")]
    pub file: String,
    /// The differences of docs/DIFFERENCES.md in which it goes Linux's way, with commas between them
    #[arg(long, value_name = "NAMES", default_value = "")]
    pub ways: String,
    /// Text as the player prints it, or a value of JSON for each line at once, for a program that chooses the next one by it
    #[arg(long, value_enum, default_value = "text")]
    pub format: Format,
}

#[derive(Args)]
pub struct Script {
    /// A script with names, or - for standard input
    #[arg(value_name = "FILE")]
    pub file: String,
    /// Plays it with this player, and tells whether its expectations hold
    #[arg(long, value_name = "BPLAY")]
    pub run: Option<String>,
    /// How often a line that waits may look before the run gives it up
    #[arg(long, value_name = "N", default_value_t = TURNS, requires = "run")]
    pub turns: u32,
    /// Writes the journal of the run there, - for standard output
    #[arg(long, value_name = "OUT", requires = "run")]
    pub journal: Option<String>,
    /// What to tell of a run: whether its expectations hold, or what each line said, as a value of JSON
    #[arg(long, value_enum, default_value = "text", requires = "run")]
    pub format: Format,
    /// Writes the player's script there, - for standard output
    #[arg(long, value_name = "OUT")]
    pub emit: Option<String>,
}

#[derive(Args)]
pub struct Show {
    /// A journal, or - for standard input
    #[arg(value_name = "JOURNAL")]
    pub journal: String,
    #[command(flatten)]
    pub range: Range,
    #[command(flatten)]
    pub selection: Selection,
    /// How many bytes of each parcel to print; 0: none
    #[arg(long, value_name = "N", default_value_t = 1024)]
    pub bytes: usize,
    /// Has libhullpippin say whether entries follow from those before them, and what the rules give where one doesn't
    #[arg(long)]
    pub judge: bool,
    /// Also shows the daemon's own steps, by which processes begin and end in its recordings
    #[arg(long)]
    pub own: bool,
    /// Waits for further entries at the end, as `tail -f` does
    #[arg(long, short)]
    pub follow: bool,
    /// Text for people, or a value of JSON a line
    #[arg(long, value_enum, default_value = "text")]
    pub format: Format,
}

#[derive(Args)]
pub struct Explain {
    /// A name of a refusal or a return; a journal, whose first unlawful entry it explains if there is no place; a kernel's log
    #[arg(value_name = "NAME|JOURNAL")]
    pub what: String,
    /// The place of an entry in that journal
    #[arg(value_name = "PLACE")]
    pub place: Option<u64>,
    /// With a kernel's log: what the lines of binder.c say in this version, as 6.1.192
    #[arg(long, value_name = "VERSION", conflicts_with = "place")]
    pub kernel: Option<String>,
    /// Text for people, or values of JSON: an entry, and then why
    #[arg(long, value_enum, default_value = "text")]
    pub format: Format,
}

#[derive(Args)]
pub struct State {
    /// A journal, or - for standard input
    #[arg(value_name = "JOURNAL", required_unless_present = "daemon")]
    pub journal: Option<String>,
    /// Looks after so many entries, or at this time, in place of the end
    #[arg(long, value_name = "PLACE|TIME")]
    pub at: Option<Spot>,
    /// Tells what differs between two places or times; of a kernel's state, between it and a later file
    #[arg(long, value_name = "PLACE|TIME|FILE", num_args = 1..=2, conflicts_with_all = ["at", "format"])]
    pub diff: Vec<String>,
    /// Text for people, or a value of JSON a line
    #[arg(long, value_enum, default_value = "text")]
    pub format: Format,
    /// Looks at a daemon that runs, now
    #[arg(long, conflicts_with_all = ["journal", "at", "diff"])]
    pub daemon: bool,
    /// The daemon's socket; else HULLPIPPIN_SOCKET, or where the daemon of this user or of the system is
    #[arg(long, value_name = "PATH", conflicts_with = "journal")]
    pub socket: Option<String>,
    /// The device; else /dev/binder
    #[arg(long, value_name = "NAME", conflicts_with = "journal")]
    pub device: Option<String>,
}

#[derive(Args)]
pub struct Holders {
    /// A journal, or - for standard input
    #[arg(value_name = "JOURNAL")]
    pub journal: String,
    /// The object, as `state` prints it
    #[arg(value_name = "PLACE.INDEX|NODE", value_parser = crate::kernel::object)]
    pub object: ObjectId,
    /// Looks after so many entries, or at this time, in place of the end
    #[arg(long, value_name = "PLACE|TIME")]
    pub at: Option<Spot>,
}

#[derive(Args)]
pub struct Leaks {
    /// A journal, or a kernel's state; - for standard input
    #[arg(value_name = "JOURNAL")]
    pub journal: String,
    /// A later state of the same kernel
    #[arg(value_name = "LATER")]
    pub later: Option<String>,
    /// Looks after so many entries, or at this time, in place of the end
    #[arg(long, value_name = "PLACE|TIME")]
    pub at: Option<Spot>,
    /// How many to print of each kind
    #[arg(long, value_name = "N", default_value_t = 20)]
    pub most: usize,
}

#[derive(Args)]
pub struct Called {
    /// A journal, or a kernel's trace or log; - for standard input
    #[arg(value_name = "FILE")]
    pub journal: String,
    #[command(flatten)]
    pub range: Range,
    #[command(flatten)]
    pub wanted: Wanted,
}

#[derive(Args)]
pub struct Stats {
    /// A journal, or - for standard input
    #[arg(value_name = "JOURNAL")]
    pub journal: String,
    #[command(flatten)]
    pub range: Range,
}

/// Whose form it is.
#[derive(Clone, Copy, Debug, PartialEq, Eq, ValueEnum)]
pub enum Form {
    /// Trace events as JSON: Perfetto's viewer, chrome://tracing
    Perfetto,
    /// Packets: Wireshark, tshark
    Pcapng,
}

/// A range, where `--to` has another meaning.
#[derive(Args, Clone, Copy, Debug)]
pub struct Span {
    /// From this place on
    #[arg(long, value_name = "PLACE", default_value_t = 0)]
    from: u64,
    /// From this time on: 12:03:07.5, 2026-11-28T12:03:07.5, or +1.5 for seconds after the first entry
    #[arg(long, value_name = "TIME")]
    since: Option<TimeWord>,
    /// Up to and without this place, or this time
    #[arg(long, value_name = "PLACE|TIME")]
    until: Option<Spot>,
}

impl Span {
    pub fn range(self) -> Range {
        let (to, until) = match self.until {
            Some(Spot::Place(place)) => (Some(place), None),
            Some(Spot::Time(time)) => (None, Some(time)),
            None => (None, None),
        };
        Range { from: self.from, to, since: self.since, until }
    }
}

#[derive(Args)]
pub struct Export {
    /// A journal, or - for standard input
    #[arg(value_name = "JOURNAL")]
    pub journal: String,
    /// The form
    #[arg(long, alias = "to", value_enum, value_name = "FORM")]
    pub format: Form,
    #[command(flatten)]
    pub span: Span,
}

/// In what form a diagram is drawn.
#[derive(Clone, Copy, Debug, PartialEq, Eq, ValueEnum)]
pub enum Drawn {
    /// One page with search, zoom and hiding, for long recordings too
    Html,
    /// A picture that stands alone
    Svg,
    /// A sequence diagram in Mermaid's language
    Mermaid,
    /// Lines of ASCII, for a terminal
    Text,
}

#[derive(Args)]
pub struct Diagram {
    /// A journal, or - for standard input
    #[arg(value_name = "JOURNAL")]
    pub journal: String,
    #[command(flatten)]
    pub range: Range,
    /// The form
    #[arg(long, value_enum, default_value = "html", value_name = "FORM")]
    pub format: Drawn,
}

#[derive(Args)]
pub struct Slow {
    /// A journal, or - for standard input
    #[arg(value_name = "JOURNAL")]
    pub journal: String,
    #[command(flatten)]
    pub range: Range,
    /// How many to print
    #[arg(long, value_name = "N", default_value_t = 20)]
    pub most: usize,
}
