//! How the panel is called, what it says on standard error, and the thread that reads the log.

use std::ffi::OsString;
use std::fs::File;
use std::io::{self, Read, Write};
use std::process::ExitCode;
use std::sync::Arc;
use std::thread;
use std::time::{Duration, Instant, SystemTime};

use crate::arguments::{self, Call};
use crate::follow::Follower;
use crate::library::{self, Depot};
use crate::log::Log;
use crate::news::News;
use crate::{posts, server, state};

pub const USAGE: &str = include_str!("panel.txt");
/// The product's.
const VERSION: &str = include_str!("../../VERSION");

/// The page is told anew so often, where nothing was found meanwhile.
const EVERY: Duration = Duration::from_secs(1);
/// The log is looked at so often where there is nothing more to read, and findings are told no more often while there is.
const POLL: Duration = Duration::from_millis(50);

/// How the program ends where it cannot begin; 1 is a POSTS that sets nothing up.
struct Ended(u8, String);

fn cannot(words: String) -> Ended {
    Ended(2, words)
}

/// Where standard error itself cannot be written there is nobody left to tell.
fn say(words: &str) {
    let _ = writeln!(io::stderr(), "panel: {words}");
}

pub fn run() -> ExitCode {
    let words: Vec<OsString> = std::env::args_os().skip(1).collect();
    let first = words.first().map(|word| word.to_string_lossy().into_owned());
    let done = match first.as_deref() {
        Some("--help" | "-h") => told(USAGE),
        Some("--version") => told(&format!("panel (Rokemaipu) {VERSION}")),
        _ => match arguments::parse(words) {
            Ok(call) => begin(call),
            Err(wrong) => Err(cannot(format!("{wrong}\n{}", USAGE.trim_end()))),
        },
    };
    match done {
        Ok(()) => ExitCode::SUCCESS,
        Err(Ended(status, words)) => {
            say(&words);
            ExitCode::from(status)
        }
    }
}

fn told(words: &str) -> Result<(), Ended> {
    let mut out = io::stdout();
    out.write_all(words.as_bytes())
        .and_then(|()| out.flush())
        .map_err(|error| cannot(format!("standard output: {error}")))
}

fn depot(name: &OsString) -> Result<Depot, Ended> {
    let shown = name.to_string_lossy();
    let mut text = Vec::new();
    let most = posts::MOST as u64 + 1;
    File::open(name)
        .and_then(|file| file.take(most).read_to_end(&mut text))
        .map_err(|error| cannot(format!("{shown}: {error}")))?;
    if text.len() > posts::MOST {
        return Err(cannot(format!("{shown}: longer than 65,535 bytes")));
    }
    let mut depot = Depot::default();
    posts::set_up_all(&mut depot, &text)
        .map_err(|wrong| Ended(1, format!("{shown}: line {}: {}", wrong.line, wrong.said)))?;
    Ok(depot)
}

fn begin(call: Call) -> Result<(), Ended> {
    if !library::is_ours() {
        return Err(cannot("the library that it was built with is of another version".to_string()));
    }
    let depot = depot(&call.posts)?;
    let shown = call.log.to_string_lossy().into_owned();
    let log = Log::open(call.log).map_err(|error| cannot(format!("{shown}: {error}")))?;
    let listener = server::listen(call.port).map_err(|error| cannot(format!("port {}: {error}", call.port)))?;
    let port = listener.local_addr().map_err(|error| cannot(error.to_string()))?.port();
    let news = Arc::new(News::default());
    let theirs = news.clone();
    thread::Builder::new()
        .name("log".to_string())
        .spawn(move || follow(Follower::new(depot, log), &theirs))
        .map_err(|error| cannot(error.to_string()))?;
    told(&format!("http://127.0.0.1:{port}/\n"))?;
    server::serve(&listener, port, &news)
}

/// The one thread for the log: nothing that a client does is waited for.
fn follow(mut follower: Follower, news: &News) {
    let mut last = None::<Instant>;
    let mut found = false;
    let mut stopped = false;
    loop {
        let step = follower.step();
        found |= step.news;
        let since = last.map_or(EVERY, |at| at.elapsed());
        if since >= EVERY || found && (since >= POLL || !step.more) {
            news.tell(state::state(&follower, SystemTime::now()));
            last = Some(Instant::now());
            found = false;
        }
        if let Some(trouble) = follower.trouble().filter(|_| !stopped) {
            stopped = true;
            say(&format!("{}: {trouble}; nothing more of it is read", follower.log.name()));
        }
        if !step.more {
            thread::sleep(POLL);
        }
    }
}
