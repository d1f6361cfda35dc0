//! A request of HTTP/1.1, as far as two pages need one: bounded, and strict in its form.

use std::io::{self, ErrorKind, Read};
use std::net::TcpStream;
use std::time::{Duration, Instant};

/// A request line and its headers together have no more bytes.
pub const MOST_BYTES: usize = 8192;
pub const MOST_LINE: usize = 1024;
pub const MOST_HEADERS: usize = 64;
/// The whole request has to be there by then.
pub const PATIENCE: Duration = Duration::from_secs(5);

#[derive(Clone, Copy, Debug, PartialEq, Eq)]
pub enum Page {
    Panel,
    Events,
}

/// Why a request is not answered with a page.
#[derive(Clone, Copy, Debug, PartialEq, Eq)]
pub enum Refused {
    Malformed,
    Host,
    Path,
    Method,
    Late,
    LongLine,
    LongHeaders,
    Crowded,
    Version,
}

impl Refused {
    pub fn status(self) -> &'static str {
        match self {
            Refused::Malformed => "400 Bad Request",
            Refused::Host => "403 Forbidden",
            Refused::Path => "404 Not Found",
            Refused::Method => "405 Method Not Allowed",
            Refused::Late => "408 Request Timeout",
            Refused::LongLine => "414 URI Too Long",
            Refused::LongHeaders => "431 Request Header Fields Too Large",
            Refused::Crowded => "503 Service Unavailable",
            Refused::Version => "505 HTTP Version Not Supported",
        }
    }
}

/// The bytes of a request up to the empty line. `None` where the other side hung up before it.
pub fn received(stream: &mut TcpStream) -> io::Result<Option<Result<Vec<u8>, Refused>>> {
    let end = Instant::now() + PATIENCE;
    let mut bytes = Vec::new();
    let mut buffer = [0; 1024];
    loop {
        let left = end.saturating_duration_since(Instant::now());
        if left.is_zero() {
            return Ok(Some(Err(Refused::Late)));
        }
        stream.set_read_timeout(Some(left))?;
        let got = match stream.read(&mut buffer) {
            Ok(0) => return Ok(None),
            Ok(got) => got,
            Err(error)
                if matches!(error.kind(), ErrorKind::WouldBlock | ErrorKind::TimedOut | ErrorKind::Interrupted) =>
            {
                continue
            }
            Err(error) => return Err(error),
        };
        let from = bytes.len().saturating_sub(3);
        bytes.extend_from_slice(&buffer[..got]);
        if let Some(at) = bytes[from..].windows(4).position(|four| four == b"\r\n\r\n") {
            bytes.truncate(from + at);
            return Ok(Some(Ok(bytes)));
        }
        if !bytes.contains(&b'\n') && bytes.len() > MOST_LINE {
            return Ok(Some(Err(Refused::LongLine)));
        }
        if bytes.len() > MOST_BYTES {
            return Ok(Some(Err(Refused::LongHeaders)));
        }
    }
}

/// The page that a request asks for, at a port of this machine.
pub fn asked(request: &[u8], port: u16) -> Result<Page, Refused> {
    let text = std::str::from_utf8(request).map_err(|_| Refused::Malformed)?;
    let mut lines = text.split("\r\n");
    let first = lines.next().unwrap_or_default();
    let headers: Vec<&str> = lines.collect();
    if first.len() > MOST_LINE {
        return Err(Refused::LongLine);
    }
    if headers.len() > MOST_HEADERS {
        return Err(Refused::LongHeaders);
    }
    if text.bytes().any(|byte| byte.is_ascii_control() && !matches!(byte, b'\r' | b'\n' | b'\t')) || stray(text) {
        return Err(Refused::Malformed);
    }
    let path = line(first)?;
    host(&headers, port)?;
    match path {
        "/" => Ok(Page::Panel),
        "/events" => Ok(Page::Events),
        _ => Err(Refused::Path),
    }
}

/// A carriage return or a line feed without the other.
fn stray(text: &str) -> bool {
    text.split("\r\n").any(|line| line.contains(['\r', '\n']))
}

/// `GET PATH HTTP/1.1`
fn line(first: &str) -> Result<&str, Refused> {
    let words: Vec<&str> = first.split(' ').collect();
    let [method, path, version] = words[..] else {
        return Err(Refused::Malformed);
    };
    if method.is_empty()
        || !method.bytes().all(is_token)
        || path.is_empty()
        || !path.bytes().all(|byte| byte.is_ascii_graphic())
    {
        return Err(Refused::Malformed);
    }
    match version {
        "HTTP/1.1" | "HTTP/1.0" => {}
        other if other.starts_with("HTTP/") => return Err(Refused::Version),
        _ => return Err(Refused::Malformed),
    }
    if method != "GET" {
        return Err(Refused::Method);
    }
    Ok(path)
}

/// Exactly one Host, which is this machine under its own name: a page of another name that leads here gets nothing. A GET has no body.
fn host(headers: &[&str], port: u16) -> Result<(), Refused> {
    let mut found = None;
    for header in headers {
        let (name, value) = header.split_once(':').ok_or(Refused::Malformed)?;
        if name.is_empty() || !name.bytes().all(is_token) {
            return Err(Refused::Malformed);
        }
        let value = value.trim_matches([' ', '\t']);
        match name.to_ascii_lowercase().as_str() {
            "host" if found.is_some() => return Err(Refused::Malformed),
            "host" => found = Some(value),
            "content-length" if value != "0" => return Err(Refused::Malformed),
            "transfer-encoding" => return Err(Refused::Malformed),
            _ => {}
        }
    }
    let known = [format!("127.0.0.1:{port}"), format!("localhost:{port}")];
    match found {
        None => Err(Refused::Malformed),
        Some(host) if known.iter().any(|known| known.eq_ignore_ascii_case(host)) => Ok(()),
        Some("127.0.0.1" | "localhost") if port == 80 => Ok(()),
        Some(_) => Err(Refused::Host),
    }
}

fn is_token(byte: u8) -> bool {
    byte.is_ascii_alphanumeric() || b"!#$%&'*+-.^_`|~".contains(&byte)
}

#[cfg(test)]
mod tests {
    use super::*;

    fn of(request: &str) -> Result<Page, Refused> {
        asked(request.as_bytes(), 8600)
    }

    #[test]
    fn pages() {
        assert_eq!(of("GET / HTTP/1.1\r\nHost: 127.0.0.1:8600"), Ok(Page::Panel));
        assert_eq!(of("GET /events HTTP/1.0\r\nAccept: x\r\nHOST:\tLocalhost:8600 "), Ok(Page::Events));
        assert_eq!(asked(b"GET / HTTP/1.1\r\nHost: localhost", 80), Ok(Page::Panel));
    }

    #[test]
    fn refused() {
        let host = "Host: 127.0.0.1:8600";
        for (request, why) in [
            (format!("GET /x HTTP/1.1\r\n{host}"), Refused::Path),
            (format!("GET /events?x HTTP/1.1\r\n{host}"), Refused::Path),
            (format!("GET http://127.0.0.1:8600/ HTTP/1.1\r\n{host}"), Refused::Path),
            (format!("GET /../etc/passwd HTTP/1.1\r\n{host}"), Refused::Path),
            (format!("POST / HTTP/1.1\r\n{host}"), Refused::Method),
            (format!("HEAD / HTTP/1.1\r\n{host}"), Refused::Method),
            (format!("get / HTTP/1.1\r\n{host}"), Refused::Method),
            (format!("GET / HTTP/2.0\r\n{host}"), Refused::Version),
            (format!("GET / http/1.1\r\n{host}"), Refused::Malformed),
            (format!("GET /\r\n{host}"), Refused::Malformed),
            (format!("GET  / HTTP/1.1\r\n{host}"), Refused::Malformed),
            (format!("GET / HTTP/1.1\n{host}"), Refused::Malformed),
            (format!("GET / HTTP/1.1\r\n {host}"), Refused::Malformed),
            (format!("GET / HTTP/1.1\r\nx\r\n{host}"), Refused::Malformed),
            (format!("GET / HTTP/1.1\r\nx\0: y\r\n{host}"), Refused::Malformed),
            (format!("GET / HTTP/1.1\r\n{host}\r\n{host}"), Refused::Malformed),
            (format!("GET / HTTP/1.1\r\n{host}\r\nContent-Length: 4"), Refused::Malformed),
            (format!("GET / HTTP/1.1\r\n{host}\r\nTransfer-Encoding: chunked"), Refused::Malformed),
            ("GET / HTTP/1.1".to_string(), Refused::Malformed),
            ("GET / HTTP/1.1\r\nHost: depot.example:8600".to_string(), Refused::Host),
            ("GET / HTTP/1.1\r\nHost: 127.0.0.1".to_string(), Refused::Host),
            ("GET / HTTP/1.1\r\nHost: 127.0.0.1:8601".to_string(), Refused::Host),
            (format!("GET /{} HTTP/1.1\r\n{host}", "x".repeat(MOST_LINE)), Refused::LongLine),
            (format!("GET / HTTP/1.1\r\n{}{host}", "x: y\r\n".repeat(MOST_HEADERS)), Refused::LongHeaders),
        ] {
            assert_eq!(of(&request), Err(why), "{request:?}");
        }
        assert_eq!(asked(b"GET /\xff HTTP/1.1\r\nHost: 127.0.0.1:8600", 8600), Err(Refused::Malformed));
    }
}
