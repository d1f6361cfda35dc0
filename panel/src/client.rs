//! One client: its request is read, and it gets the page, the events, or the reason why it gets neither.

use std::io::{self, Read, Write};
use std::net::{Shutdown, TcpStream};
use std::time::Duration;

use crate::http::{self, Page, Refused};
use crate::news::News;
use crate::page::Nonce;

/// A client that takes nothing for so long is let go.
const WRITING: Duration = Duration::from_secs(5);
/// The log's thread tells something every second.
const WAITING: Duration = Duration::from_secs(10);
/// What a refused client still sends is read, so that it gets its answer, but not for long.
const DRAINING: (Duration, usize) = (Duration::from_millis(200), 65_536);

/// What every answer has. The connection ends behind it.
const ALWAYS: &str = "Cache-Control: no-store\r\nX-Content-Type-Options: nosniff\r\nX-Frame-Options: DENY\r\nReferrer-Policy: no-referrer\r\n\
    Cross-Origin-Resource-Policy: same-origin\r\nCross-Origin-Opener-Policy: same-origin\r\nConnection: close\r\n";

/// Its errors are those of a client that went away.
pub fn serve(mut stream: TcpStream, port: u16, news: &News) -> io::Result<()> {
    stream.set_write_timeout(Some(WRITING))?;
    stream.set_nodelay(true)?;
    let Some(request) = http::received(&mut stream)? else {
        return Ok(());
    };
    match request.and_then(|bytes| http::asked(&bytes, port)) {
        Ok(Page::Panel) => panel(&mut stream),
        Ok(Page::Events) => events(&mut stream, news),
        Err(why) => refuse(&mut stream, why),
    }
}

fn panel(stream: &mut TcpStream) -> io::Result<()> {
    let nonce = Nonce::new()?;
    let page = nonce.page();
    let head = format!("Content-Type: text/html; charset=utf-8\r\nContent-Security-Policy: {}\r\n", nonce.policy());
    answer(stream, "200 OK", &head, &page)
}

fn answer(stream: &mut TcpStream, status: &str, head: &str, body: &str) -> io::Result<()> {
    let whole = format!("HTTP/1.1 {status}\r\n{ALWAYS}{head}Content-Length: {}\r\n\r\n{body}", body.len());
    stream.write_all(whole.as_bytes())?;
    stream.shutdown(Shutdown::Write)?;
    drain(stream)
}

pub fn refuse(stream: &mut TcpStream, why: Refused) -> io::Result<()> {
    let allow = if why == Refused::Method { "Allow: GET\r\n" } else { "" };
    let head =
        format!("{allow}Content-Type: text/plain; charset=utf-8\r\nContent-Security-Policy: default-src 'none'\r\n");
    answer(stream, why.status(), &head, &format!("{}\n", why.status()))
}

fn drain(stream: &mut TcpStream) -> io::Result<()> {
    let (patience, most) = DRAINING;
    stream.set_read_timeout(Some(patience))?;
    let mut buffer = [0; 4096];
    let mut left = most;
    while left > 0 {
        match stream.read(&mut buffer)? {
            0 => return Ok(()),
            got => left = left.saturating_sub(got),
        }
    }
    Ok(())
}

/// Each state as an event, to the client's end.
fn events(stream: &mut TcpStream, news: &News) -> io::Result<()> {
    let head = format!(
        "HTTP/1.1 200 OK\r\n{ALWAYS}Content-Type: text/event-stream; charset=utf-8\r\nContent-Security-Policy: default-src 'none'\r\n\r\nretry: 1000\n\n"
    );
    stream.write_all(head.as_bytes())?;
    let mut seen = 0;
    loop {
        match news.after(seen, WAITING) {
            Some((number, state)) => {
                seen = number;
                stream.write_all(format!("data: {state}\n\n").as_bytes())?;
            }
            None => stream.write_all(b":\n\n")?,
        }
    }
}
