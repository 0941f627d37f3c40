//! The words after the program's name.

use crate::names::{quoted, shown};
use crate::part::Part;
use crate::search::{Limits, BUDGET};
use crate::show::Style;
use crate::words::Words;
use macaroosh::terms::rules::Edition;
use macaroosh::Form;
use std::collections::{BTreeSet, VecDeque};
use std::ffi::{OsStr, OsString};
use std::path::PathBuf;
use std::str::FromStr;

/// What the words ask for.
#[derive(Debug)]
pub enum Asked {
    /// The usage.
    Help,
    /// The version.
    Version,
    /// There were no words.
    Nothing,
    /// An answer.
    Answer(Request),
    /// Tables in another edition, each in a file of its own.
    Move(Shelf),
}

/// Tables that are moved to an edition, all into one folder.
#[derive(Debug)]
pub struct Shelf {
    /// The edition.
    pub to: Edition,
    /// Each by the name of its file; no two names are the same.
    pub tables: Vec<(OsString, Input)>,
    /// Where each is written under its name.
    pub folder: PathBuf,
    /// Whether a file of other content is replaced there.
    pub replace: bool,
    /// Whom the answer is for.
    pub style: Style,
}

/// One question about one bundle, table, drawing or text, or about a bundle and a log or a list.
#[derive(Debug)]
pub struct Request {
    /// The question.
    pub command: Command,
    /// Where the bundle, table, drawing or text is read.
    pub input: Input,
    /// Where the log is read that a replay is asked of.
    pub log: Option<Input>,
    /// Where the list is read that a check is asked of.
    pub list: Option<Input>,
    /// Where the standing table is read, if it is not the echo table.
    pub standing: Option<Input>,
    /// Where the output is written, if not to standard output (`-`).
    pub output: Option<PathBuf>,
    /// Whether what a refused schedule left goes there too, and not to standard output.
    pub partial: bool,
    /// Whether the lines of a run have its receipts and sends too.
    pub receipts: bool,
    /// Whom the answer is for.
    pub style: Style,
}

/// The questions.
#[derive(Clone, Copy, Debug)]
pub enum Command {
    /// The configuration that a schedule leaves.
    Run,
    /// The bundle in a form, or in the other form.
    Translate(Option<Form>),
    /// The first possible step after the schedule.
    First,
    /// All possible steps after it.
    All,
    /// Each step, of those that are asked for.
    Trace(Part),
    /// The first steps after the schedule that put a board in an accepting state.
    Search(Limits),
    /// Whether a list shows that no schedule of the bundle's start accepts.
    Check,
    /// The list of what is reached from there.
    List,
    /// The drawing of a table, or an image of it.
    Draw(Option<Image>),
    /// The same of a bundle's own table.
    DrawOf(Option<Image>),
    /// The table of a drawing.
    Undraw,
    /// The text of a bundle.
    Unpack,
    /// The bundle of a text.
    Pack,
    /// What a log leaves, over a bundle without steps.
    Replay(Rows),
    /// The log of a bundle.
    Log,
    /// A table in an edition.
    Edition(Edition),
}

/// What a replay shows.
#[derive(Clone, Copy, Debug, PartialEq, Eq)]
pub enum Rows {
    /// The configuration alone.
    None,
    /// A row for each line.
    All,
    /// The same, each as soon as its line has come in.
    AsTheyCome,
}

impl Command {
    /// What its input is.
    pub fn reads(self) -> &'static str {
        match self {
            Command::Draw(_) | Command::Edition(_) => "table",
            Command::Undraw => "drawing",
            Command::Pack => "text",
            _ => "bundle",
        }
    }

    /// Whether it reads a log besides.
    pub fn reads_log(self) -> bool {
        matches!(self, Command::Replay(_))
    }

    /// Whether the file of `-o` is for a bundle, beside what is shown.
    pub fn keeps_bundle(self) -> bool {
        matches!(self, Command::Replay(_) | Command::Search(_))
    }

    /// Whether its output is bytes that are no text.
    pub fn writes_bytes(self) -> bool {
        let image = matches!(self, Command::Draw(Some(Image::Png)) | Command::DrawOf(Some(Image::Png)));
        image
            || matches!(self, Command::Translate(_) | Command::Undraw | Command::Pack | Command::Edition(_))
            || matches!(self, Command::List)
    }
}

/// What Graphviz makes of a drawing.
#[derive(Clone, Copy, Debug, PartialEq, Eq)]
pub enum Image {
    /// Lines and letters, for browsers and pages.
    Svg,
    /// Dots.
    Png,
}

/// Standard input (`-`) or a file.
#[derive(Debug)]
pub enum Input {
    /// Standard input.
    Standard,
    /// The file of a path.
    File(PathBuf),
}

impl Input {
    fn of(word: OsString) -> Input {
        if word == "-" {
            Input::Standard
        } else {
            Input::File(PathBuf::from(word))
        }
    }

    fn is_standard(&self) -> bool {
        matches!(self, Input::Standard)
    }
}

const COMMANDS: &str =
    "run, trace, first, translate, draw, undraw, unpack, pack, replay, log, edition, search, check, list";
const OPTIONS: &str = "--standing, -o, --to, --svg, --png, --of, --all, --board, --from, --trace, --follow, --into, \
                       --replace, --depth, --budget, --plain, --json, --partial, --receipts, --help, --version";

/// The options that are for some commands alone.
#[derive(Default)]
struct Special {
    to: Option<OsString>,
    image: Option<Image>,
    board: Option<usize>,
    from: Option<usize>,
    all: bool,
    // How many words that are no options stand before it.
    of: Option<usize>,
    trace: bool,
    follow: bool,
    depth: Option<u64>,
    budget: Option<u64>,
}

// The words that are no options, the command first.
type Free = VecDeque<OsString>;

/// Reads the words, or says what is wrong with them. Options may stand anywhere; after `--` there are none.
pub fn parse(words: impl Iterator<Item = OsString>) -> Result<Asked, String> {
    let mut words = Words::of(words);
    let mut free = Free::new();
    let (mut standing, mut output, mut into, mut special) = (None, None, None, Special::default());
    let (mut plain, mut json, mut partial, mut receipts, mut replace) = (false, false, false, false, false);
    let (mut options_end, mut any) = (false, false);
    while let Some(word) = words.next()? {
        any = true;
        // A word that is no text is no option, so it is taken as it is.
        match word.to_str().unwrap_or("") {
            text if options_end || !text.starts_with('-') || text == "-" => free.push_back(word),
            "--" => options_end = true,
            "--help" | "-h" => return Ok(Asked::Help),
            "--version" => return Ok(Asked::Version),
            "--plain" => plain = true,
            "--partial" => partial = true,
            "--receipts" => receipts = true,
            "--json" => json = true,
            "--all" => special.all = true,
            "--of" => {
                once(&mut special.of, free.len(), "--of")?;
                free.extend(words.attached());
            }
            "--trace" => special.trace = true,
            "--follow" => special.follow = true,
            "--replace" => replace = true,
            "--into" => once(&mut into, PathBuf::from(words.value("--into", "folder")?), "--into")?,
            "--board" => once(&mut special.board, place(&words.value("--board", "number")?)?, "--board")?,
            "--from" => once(&mut special.from, place(&words.value("--from", "step")?)?, "--from")?,
            "--depth" => once(&mut special.depth, number(&words.value("--depth", "number")?, "of steps")?, "--depth")?,
            "--budget" => {
                once(&mut special.budget, number(&words.value("--budget", "number")?, "of tries")?, "--budget")?
            }
            "--standing" => once(&mut standing, Input::of(words.value("--standing", "file")?), "--standing")?,
            "-o" => once(&mut output, words.value("-o", "file")?, "-o")?,
            "--to" => once(&mut special.to, words.value("--to", "form, edition or step")?, "--to")?,
            "--svg" => once(&mut special.image, Image::Svg, "--svg or --png")?,
            "--png" => once(&mut special.image, Image::Png, "--svg or --png")?,
            _ => return Err(format!("there is no option '{}'; the options are {OPTIONS}", shown(&word))),
        }
    }
    if !any {
        return Ok(Asked::Nothing);
    }
    let command = match free.pop_front() {
        None => {
            let all = COMMANDS.replace(", list", " or list");
            return Err(format!("which command: {all}?"));
        }
        Some(word) if word == "help" => return Ok(Asked::Help),
        Some(word) => command(&word, &special)?,
    };
    options_fit(command, partial, receipts, standing.is_some())?;
    let style = style(command, plain, json)?;
    if let Some(folder) = into {
        let to = match command {
            Command::Edition(_) if output.is_some() => return Err("-o is one file, --into a folder; choose one".into()),
            Command::Edition(to) => to,
            _ => return Err("--into is for edition alone".to_string()),
        };
        return Ok(Asked::Move(Shelf { to, tables: tables(free.into_iter())?, folder, replace, style }));
    }
    if replace {
        return Err("--replace is for --into alone; the file of -o is replaced anyway".to_string());
    }
    let of = if matches!(command, Command::Check) { Some(take_bundle(&mut free, special.of)?) } else { None };
    let what = if of.is_some() { "list" } else { command.reads() };
    let mut input = |what: &str| {
        let word = free.pop_front().ok_or_else(|| format!("which {what}? Name a file, or '-' for standard input"));
        word.map(Input::of)
    };
    let (input, log) = (input(what)?, command.reads_log().then(|| input("log")).transpose()?);
    if let Some(word) = free.pop_front() {
        let log = if log.is_some() { " and one log" } else { "" };
        let several = if matches!(command, Command::Edition(_)) { "; --into FOLDER takes several" } else { "" };
        return Err(format!("one {what}{log} at a time: '{}' is one word too many{several}", shown(&word)));
    }
    let beside = [("log", log.as_ref()), ("bundle", of.as_ref()), ("standing table", standing.as_ref())];
    one_from_standard_input(&[&[(what, Some(&input))], &beside[..]].concat())?;
    if command.keeps_bundle() && output.as_ref().map_or(false, |word| word == "-") {
        let what = if command.reads_log() { "replay" } else { "search" };
        return Err(format!("what a {what} shows goes to standard output, and -o keeps its bundle; name a file"));
    }
    let output = output.filter(|word| word != "-").map(PathBuf::from);
    let (input, list) = match of {
        Some(bundle) => (bundle, Some(input)),
        None => (input, None),
    };
    Ok(Asked::Answer(Request { command, input, log, list, standing, output, partial, receipts, style }))
}

// Whether options that several commands have are for this one.
fn options_fit(command: Command, partial: bool, receipts: bool, standing: bool) -> Result<(), String> {
    if partial && !matches!(command, Command::Run | Command::Trace(_)) {
        return Err("--partial is for run and trace alone".to_string());
    }
    if receipts && !matches!(command, Command::Run | Command::Replay(Rows::None)) {
        return Err("--receipts is for run alone, and for replay without --trace and --follow".to_string());
    }
    if standing && matches!(command, Command::DrawOf(_)) {
        return Err("--of draws a bundle's own table; --standing is for bundles that are run".to_string());
    }
    if standing && matches!(command, Command::Draw(_) | Command::Undraw | Command::Edition(_)) {
        return Err(format!("--standing is for bundles; this command reads a {} alone", command.reads()));
    }
    Ok(())
}

// The bundle that a list is of: the word after --of, which was met after so many words with the command.
fn take_bundle(free: &mut Free, of: Option<usize>) -> Result<Input, String> {
    let of = of.ok_or("of which bundle? As 'check LIST --of BUNDLE'")?;
    let bundle = of.checked_sub(1).and_then(|at| free.remove(at)).filter(|word| !word.is_empty());
    bundle.map(Input::of).ok_or_else(|| "--of needs a bundle after it".to_string())
}

// The tables of a shelf, each with a name of its own.
fn tables(words: impl Iterator<Item = OsString>) -> Result<Vec<(OsString, Input)>, String> {
    let (mut tables, mut names) = (Vec::new(), BTreeSet::new());
    for word in words {
        let path = PathBuf::from(&word);
        let name = match path.file_name() {
            Some(name) if word != "-" => name.to_owned(),
            Some(_) => return Err("--into writes a table under its own name, and standard input has none".to_string()),
            None => return Err(format!("{} is no name of a file", quoted(&path))),
        };
        if !names.insert(name.clone()) {
            let name = shown(&name);
            return Err(format!("two tables are named '{name}', and --into would write one over the other"));
        }
        tables.push((name, Input::File(path)));
    }
    if tables.is_empty() {
        return Err("which tables? Name their files".to_string());
    }
    Ok(tables)
}

// It can be read once.
fn one_from_standard_input(inputs: &[(&str, Option<&Input>)]) -> Result<(), String> {
    let from_it: Vec<&str> =
        inputs.iter().filter(|(_, input)| input.map_or(false, Input::is_standard)).map(|(what, _)| *what).collect();
    match from_it[..] {
        [one, other, ..] => Err(format!("only one of {one} and {other} can come from standard input")),
        _ => Ok(()),
    }
}

fn command(word: &OsStr, special: &Special) -> Result<Command, String> {
    let Special { ref to, image, board, from, all, of, trace, follow, depth, budget } = *special;
    let (to, of) = (to.as_deref(), of.is_some());
    let command = match word.to_str() {
        Some("run") => Command::Run,
        Some("translate") => Command::Translate(to.map(form).transpose()?),
        Some("first") if all => Command::All,
        Some("first") => Command::First,
        Some("trace") => Command::Trace(part(board, from, to)?),
        Some("draw") if of => Command::DrawOf(image),
        Some("draw") => Command::Draw(image),
        Some("undraw") => Command::Undraw,
        Some("unpack") => Command::Unpack,
        Some("pack") => Command::Pack,
        Some("replay") if follow => Command::Replay(Rows::AsTheyCome),
        Some("replay") if trace => Command::Replay(Rows::All),
        Some("replay") => Command::Replay(Rows::None),
        Some("log") => Command::Log,
        Some("search") => Command::Search(limits(depth, budget)?),
        Some("check") => Command::Check,
        Some("list") => Command::List,
        Some("edition") => Command::Edition(edition(to)?),
        _ => {
            let word = shown(word);
            return Err(format!("there is no command '{word}'; the commands are {COMMANDS}"));
        }
    };
    if image.is_some() && !matches!(command, Command::Draw(_) | Command::DrawOf(_)) {
        return Err("--svg and --png are for draw alone".to_string());
    }
    if of && !matches!(command, Command::DrawOf(_) | Command::Check) {
        return Err("--of is for draw and check alone".to_string());
    }
    if all && !matches!(command, Command::All) {
        return Err("--all is for first alone".to_string());
    }
    if to.is_some() && !matches!(command, Command::Translate(_) | Command::Trace(_) | Command::Edition(_)) {
        return Err("--to is for translate, trace and edition alone".to_string());
    }
    if (board.is_some() || from.is_some()) && !matches!(command, Command::Trace(_)) {
        return Err("--board and --from are for trace alone".to_string());
    }
    if (trace || follow) && !command.reads_log() {
        return Err("--trace and --follow are for replay alone".to_string());
    }
    if (depth.is_some() || budget.is_some()) && !matches!(command, Command::Search(_)) {
        return Err("--depth and --budget are for search alone".to_string());
    }
    Ok(command)
}

// The steps that a trace is asked for.
fn part(board: Option<usize>, from: Option<usize>, to: Option<&OsStr>) -> Result<Part, String> {
    let to = to.map(place).transpose()?;
    match (from, to) {
        (Some(first), Some(last)) if first > last => Err(format!("--from {first} is after --to {last}")),
        _ => Ok(Part { board, from, to }),
    }
}

// How far a search goes.
fn limits(depth: Option<u64>, budget: Option<u64>) -> Result<Limits, String> {
    let depth = depth.ok_or("how many steps deep: --depth 0 to --depth 8?")?;
    Ok(Limits { depth, budget: budget.unwrap_or(BUDGET) })
}

// Whom the answer is for; bytes and drawings have no JSON.
fn style(command: Command, plain: bool, json: bool) -> Result<Style, String> {
    match (plain, json, command) {
        (true, true, _) => Err("--plain and --json are two ways to give one answer; choose one".to_string()),
        (_, true, Command::Replay(Rows::AsTheyCome)) => {
            Err("--json is one object, and --follow gives rows as they come; --plain has lines for programs"
                .to_string())
        }
        (_, true, Command::Run | Command::Trace(_) | Command::First | Command::All) => Ok(Style::Json),
        (_, true, Command::Replay(_) | Command::Search(_) | Command::Check) => Ok(Style::Json),
        (_, true, _) => Err("--json is for run, trace, first, replay, search and check alone".to_string()),
        (true, false, _) => Ok(Style::Plain),
        (false, false, _) => Ok(Style::People),
    }
}

// The number of a board or a step.
fn place(word: &OsStr) -> Result<usize, String> {
    number(word, "of a board or a step")
}

// A number of something, in plain decimal.
fn number<N: FromStr>(word: &OsStr, of: &str) -> Result<N, String> {
    let digits = word.to_str().filter(|text| text.bytes().all(|byte| byte.is_ascii_digit()));
    let number = digits.and_then(|text| text.parse().ok());
    number.ok_or_else(|| format!("'{}' is no number {of}", shown(word)))
}

// The form that a word names.
fn form(word: &OsStr) -> Result<Form, String> {
    word.to_str().and_then(Form::named).ok_or_else(|| {
        let forms = Form::ALL.map(Form::name).join(", ");
        format!("there is no form '{}'; the forms are {forms}", shown(word))
    })
}

// The edition that a word names.
fn edition(word: Option<&OsStr>) -> Result<Edition, String> {
    let word = word.ok_or("which edition: --to first or --to second?")?;
    word.to_str().and_then(Edition::named).ok_or_else(|| {
        let editions = Edition::ALL.map(Edition::name).join(", ");
        format!("there is no edition '{}'; the editions are {editions}", shown(word))
    })
}

fn once<T>(slot: &mut Option<T>, value: T, option: &str) -> Result<(), String> {
    match slot.replace(value) {
        None => Ok(()),
        Some(_) => Err(format!("{option} is given twice")),
    }
}
