//! The program at the bench: run, translate, first, trace, search; draw, undraw; unpack, pack; replay, log; edition; check, list. Exit
//! status 0 answered, 1 refused, 2 bad use.
#![deny(unsafe_code)]

mod all;
mod args;
mod draw;
mod edition;
mod files;
mod graphviz;
mod guard;
mod json;
mod kinds;
mod list;
mod log;
mod marks;
mod names;
mod output;
mod part;
mod picture;
mod progress;
mod replies;
mod search;
mod shelf;
mod show;
mod system;
mod text;
mod trace;
mod why;
mod words;

use args::{Asked, Command, Input, Request, Rows};
use macaroosh::{ECHO, MOST_BYTES, MOST_DRAWING};
use replies::{Question, Reply};
use show::Style;
use std::io::Write;
use std::process::ExitCode;

const USAGE: &str = "\
Macaroosh runs a schedule of steps against a threshold table.

  macaroosh run FILE         show the configuration that the schedule leaves,
                             and how many of its steps receive a message or
                             send one, of how many at most
  macaroosh trace FILE       show each step: who sent what to whom, the counts
                             after it, and which lines can be exchanged
  macaroosh first FILE       name the first step that is possible after it, or
                             say that the run is quiet: nothing but waits
  macaroosh search FILE      find the first steps after it that put a board in
                             an accepting state, at most --depth D of them
  macaroosh check LIST --of FILE
                             check a list of configurations; accepted, it shows
                             that no schedule of the bundle's table, n, t, f
                             and starts puts a board in an accepting state
  macaroosh list FILE        write such a list: all that is reached from the
                             bundle's start, which has no steps
  macaroosh translate FILE   write the bundle in the other form: counting, or
                             message if it is in counting form
  macaroosh draw TABLE       write the table as a drawing, in Graphviz's DOT
                             language
  macaroosh undraw DRAWING   write the table of a drawing, also of an edited
                             one
  macaroosh unpack FILE      write the bundle as text: its drawing, then a
                             line for each step
  macaroosh pack TEXT        write the bundle of a text, also of an edited one
  macaroosh replay FILE LOG  show what the lines of a service log leave, as
                             the steps of a bundle that has none
  macaroosh log FILE         write the log of a bundle: a line for each step
  macaroosh edition TABLE    write the table in the other edition, with a
                             divisor 1 in each rule or with none; with --into
                             many tables, each under its own name

FILE is a bundle: a table, then a schedule. A bundle without a table is read
beside the standing table. TABLE is a table alone, without a schedule. LOG has
lines 'board 0 rule 3' and 'board 2 rule 3 type 0 from 0'; by rule 254 a board
loses power and stops. LIST is configurations in words of 64 bits, as a run in
counting form leaves them. For each of the six '-' is standard input.

  --to FORM         the form to translate to: message, counting or plain
  --to EDITION      the edition to move a table to: first or second
  --into FOLDER     with edition: write each TABLE there; one that is refused
                    is named, and the others go on
  --replace         with --into: also over files that have other content
  --from I, --to J  trace steps I to J alone
  --board P         trace the steps of board P alone
  --all             list every possible step, the first one first
  --depth D         how many steps a search finds at most, 0 to 8
  --budget N        how many steps a search tries at most; without this option
                    100,000,000, which takes some seconds
  --of              draw the table that a bundle has in front
  --of FILE         with check: the bundle, in counting form without steps
  --trace           with replay: show each line as trace shows a step
  --follow          the same, each as soon as its line has come in; ends at
                    the first line that is refused
  --standing FILE   the standing table; without this option the echo table
  --svg, --png      draw an image of the table; needs Graphviz's program dot
  -o FILE           write the output there; a file of that name stays as it
                    was until the new one is whole. With replay: keep the
                    bundle there, also where a step is refused; with search:
                    the bundle with the steps that were found
  --partial         with run or trace: write there too what a schedule left
                    that is refused at a step; without it a refused input
                    leaves the file as it was
  --plain           the same answer in numbers, for programs
  --receipts        with run or replay, and --plain: a line 'receipts R S'
                    more, for the steps that receive and those that send
  --json            the same answer of run, trace, first, replay, search or
                    check as a JSON object
  --help            this page
  --version         the version

A value may follow its option after '=' too: --to=plain.

Exit status: 0 answered; 1 the input is refused, and its number, place and
reason are on standard error; 2 bad use, or a file cannot be read or written,
or is in the way of --into.
Try: macaroosh trace examples/w.bundle
     macaroosh draw examples/echo.table
     macaroosh replay examples/w-empty.bundle examples/w.log --trace
     macaroosh search examples/bubble.bundle --depth 5
     macaroosh check examples/no-bubble.list --of examples/no-bubble.bundle
";

const VERSION: &str = concat!("macaroosh ", env!("CARGO_PKG_VERSION"), "\n");

fn main() -> ExitCode {
    let status = guard::guarded(|| match args::parse(std::env::args_os().skip(1)) {
        Ok(Asked::Help) => files::write(None, USAGE.as_bytes()).map(|()| 0),
        Ok(Asked::Version) => files::write(None, VERSION.as_bytes()).map(|()| 0),
        Ok(Asked::Nothing) => Err(USAGE.to_string()),
        Ok(Asked::Answer(request)) => answer(&request),
        Ok(Asked::Move(shelf)) => shelf::moved(&shelf),
        Err(mistake) => Err(format!("macaroosh: {mistake}\nTry 'macaroosh --help'.\n")),
    });
    ExitCode::from(status.unwrap_or_else(|mistake| {
        tell(&mistake);
        2
    }))
}

// Answers a request: its exit status, or what is wrong with its files.
fn answer(request: &Request) -> Result<u8, String> {
    if request.output.is_none() && request.command.writes_bytes() && system::is_terminal(1) {
        return Err("macaroosh: the output is bytes and no text for a terminal; give -o FILE\n".to_string());
    }
    let reply = reply(request)?;
    write(request, &reply)?;
    if let Some(told) = reply.told {
        tell(&told);
    }
    Ok(u8::from(reply.refused))
}

// A refused input leaves an existing file as it was: what it has to show is for standard output, unless that is asked for.
fn write(request: &Request, reply: &Reply) -> Result<(), String> {
    let path = request.output.as_deref();
    // What a replay or a search shows is for standard output in any case.
    if request.command.keeps_bundle() {
        reply.kept.as_ref().map_or(Ok(()), |bundle| files::write(path, bundle))?;
        return files::write(None, &reply.output);
    }
    if path.is_some() && reply.refused && reply.output.is_empty() {
        return Ok(());
    }
    files::write(path.filter(|_| request.partial || !reply.refused), &reply.output)
}

fn reply(request: &Request) -> Result<Reply, String> {
    let path = request.output.as_deref();
    let bundle = |input| files::read(input, &format!("a bundle has at most {MOST_BYTES}"));
    let standing = || request.standing.as_ref().map_or(Ok(ECHO.to_vec()), files::table);
    let plain = request.style == Style::Plain;
    let ask = |answered: &dyn Fn(&Question) -> Result<Reply, String>| {
        let (bundle, standing) = (bundle(&request.input)?, standing()?);
        let (style, receipts) = (request.style, request.receipts);
        answered(&Question { bundle: &bundle, standing: &standing, log: None, list: None, style, receipts })
    };
    match request.command {
        Command::Run => ask(&|question| Ok(replies::run(question))),
        Command::Translate(to) => ask(&|question| Ok(replies::translate(question, to, path))),
        Command::First => ask(&|question| Ok(replies::first(question))),
        Command::All => ask(&replies::all),
        Command::Trace(part) => ask(&|question| Ok(trace::reply(question, part))),
        Command::Search(limits) => ask(&|question| search::reply(question, limits, path)),
        Command::Check => ask(&|question| check(question, request)),
        Command::List => ask(&|question| Ok(list::make::reply(question, path))),
        Command::Draw(image) => draw::draw(&files::table(&request.input)?, image, path, plain),
        Command::DrawOf(image) => draw::draw_of(&bundle(&request.input)?, image, path, plain),
        Command::Undraw => {
            let most = format!("a drawing without blanks of its own has at most {MOST_DRAWING}");
            Ok(draw::undraw(&files::read(&request.input, &most)?, path, plain))
        }
        Command::Unpack => ask(&|question| Ok(text::unpack::reply(question, path))),
        Command::Pack => {
            let most = format!("a text without comments and blanks of its own has at most {}", text::MOST_TEXT);
            Ok(text::pack::reply(&files::read(&request.input, &most)?, &standing()?, path, plain))
        }
        Command::Replay(rows) => ask(&|question| replay(question, request, rows)),
        Command::Log => ask(&|question| Ok(log::say::reply(question, path))),
        Command::Edition(to) => Ok(edition::reply(&files::table(&request.input)?, to, path, plain)),
    }
}

fn replay(question: &Question, request: &Request, rows: Rows) -> Result<Reply, String> {
    let path = request.output.as_deref();
    let from = request.log.as_ref().unwrap_or(&Input::Standard);
    if rows == Rows::AsTheyCome {
        return log::follow::reply(question, from, path);
    }
    let log = files::read(from, &format!("a log has at most {}", log::MOST_LOG))?;
    Ok(log::replay::reply(question, &log, rows == Rows::All, path))
}

fn check(question: &Question, request: &Request) -> Result<Reply, String> {
    let from = request.list.as_ref().unwrap_or(&Input::Standard);
    let list = files::read(from, &format!("a list has at most {}", list::MOST_LIST))?;
    Ok(list::check::reply(question, &list))
}

// To standard error; if that is closed there is nobody to tell.
fn tell(text: &str) {
    let _ = std::io::stderr().write_all(text.as_bytes());
}
