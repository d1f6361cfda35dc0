//! The command line: POSTS, LOG and the port.

use std::ffi::OsString;

/// Where the panel is unless told otherwise.
pub const PORT: u16 = 8600;

#[derive(Debug, PartialEq, Eq)]
pub struct Call {
    pub posts: OsString,
    pub log: OsString,
    pub port: u16,
}

/// `Err` says what is wrong with the arguments.
pub fn parse(arguments: Vec<OsString>) -> Result<Call, String> {
    let mut files = Vec::new();
    let mut port = None;
    let mut arguments = arguments.into_iter();
    while let Some(argument) = arguments.next() {
        let shown = argument.to_string_lossy();
        if shown == "--port" {
            let value = arguments.next().ok_or("--port lacks its value")?;
            let value = value.to_string_lossy();
            let number = value.parse().map_err(|_| format!("--port {value}: no port from 0 to 65,535"))?;
            if port.replace(number).is_some() {
                return Err("--port stands twice".to_string());
            }
        } else if shown.starts_with('-') {
            return Err(format!("there is no option {shown}"));
        } else {
            files.push(argument);
        }
    }
    let [posts, log] = <[OsString; 2]>::try_from(files).map_err(|_| "a POSTS and a LOG are needed, and no more")?;
    Ok(Call { posts, log, port: port.unwrap_or(PORT) })
}

#[cfg(test)]
mod tests {
    use super::*;

    fn parsed(line: &str) -> Result<Call, String> {
        parse(line.split_whitespace().map(OsString::from).collect())
    }

    #[test]
    fn calls() {
        let call = |port| Ok(Call { posts: "a".into(), log: "b".into(), port });
        assert_eq!(parsed("a b"), call(PORT));
        for line in ["--port 0 a b", "a --port 0 b", "a b --port 0"] {
            assert_eq!(parsed(line), call(0));
        }
    }

    #[test]
    fn wrong() {
        for (line, wrong) in [
            ("", "a POSTS and a LOG are needed, and no more"),
            ("a b c", "a POSTS and a LOG are needed, and no more"),
            ("a b --port", "--port lacks its value"),
            ("a b --port 65536", "--port 65536: no port from 0 to 65,535"),
            ("--port 1 --port 2 a b", "--port stands twice"),
            ("--host a b", "there is no option --host"),
        ] {
            assert_eq!(parsed(line), Err(wrong.to_string()), "{line}");
        }
    }
}
