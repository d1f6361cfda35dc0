//! The command line: options with a value each, filters without one, IN and OUT.

use std::ffi::{OsStr, OsString};

#[derive(Debug, Default)]
pub struct Call {
    values: Vec<(&'static str, OsString)>,
    filters: Vec<&'static str>,
    pub input: OsString,
    pub output: OsString,
}

impl Call {
    pub fn value(&self, option: &str) -> Option<&OsStr> {
        self.values.iter().find(|(name, _)| *name == option).map(|(_, value)| value.as_os_str())
    }

    pub fn has(&self, filter: &str) -> bool {
        self.filters.contains(&filter)
    }
}

/// `None` where help is asked for; `Err` says what is wrong with the arguments. A filter stands between pipes, so that IN and OUT
/// may be left out with it: standard input and output.
pub fn parse(
    arguments: Vec<OsString>,
    options: &[&'static str],
    filters: &[&'static str],
) -> Result<Option<Call>, String> {
    let mut call = Call::default();
    let mut files = Vec::new();
    let mut arguments = arguments.into_iter();
    while let Some(argument) = arguments.next() {
        let shown = argument.to_string_lossy();
        if shown == "--help" || shown == "-h" {
            return Ok(None);
        }
        if let Some(option) = options.iter().find(|option| argument == **option) {
            let value = arguments.next().ok_or_else(|| format!("{option} lacks its value"))?;
            if call.value(option).is_some() {
                return Err(format!("{option} stands twice"));
            }
            call.values.push((option, value));
        } else if let Some(filter) = filters.iter().find(|filter| argument == **filter) {
            call.filters.push(filter);
        } else if shown.starts_with('-') && shown != "-" {
            return Err(format!("there is no option {shown}"));
        } else {
            files.push(argument);
        }
    }
    if files.is_empty() && !call.filters.is_empty() {
        files = vec!["-".into(), "-".into()];
    }
    let [input, output] = <[OsString; 2]>::try_from(files).map_err(|_| "an IN and an OUT are needed, and no more")?;
    Ok(Some(Call { input, output, ..call }))
}

#[cfg(test)]
mod tests {
    use super::*;

    fn parsed(line: &str) -> Result<Option<Call>, String> {
        parse(line.split_whitespace().map(OsString::from).collect(), &["--map", "--clock"], &["--lines"])
    }

    #[test]
    fn options_anywhere() {
        for line in ["--clock wrap a -", "a --clock wrap -", "a - --clock wrap"] {
            let call = parsed(line).unwrap().unwrap();
            assert_eq!((call.input.as_os_str(), call.output.as_os_str()), (OsStr::new("a"), OsStr::new("-")));
            assert_eq!((call.value("--clock"), call.value("--map")), (Some(OsStr::new("wrap")), None));
        }
        assert!(parsed("--clock --help a").unwrap_err().starts_with("an IN and an OUT"));
    }

    #[test]
    fn filters() {
        for (line, input) in [("--lines", "-"), ("--clock wrap --lines", "-"), ("a b --lines", "a")] {
            let call = parsed(line).unwrap().unwrap();
            assert!(call.has("--lines") && call.input == input, "{line}");
        }
        assert!(!parsed("a b").unwrap().unwrap().has("--lines"));
        assert!(parsed("--lines a").unwrap_err().starts_with("an IN and an OUT"));
    }

    #[test]
    fn help() {
        for line in ["--help", "-h", "a --help", "a b c -h"] {
            assert!(parsed(line).unwrap().is_none());
        }
    }

    #[test]
    fn wrong() {
        for (line, wrong) in [
            ("", "an IN and an OUT are needed, and no more"),
            ("a", "an IN and an OUT are needed, and no more"),
            ("a b c", "an IN and an OUT are needed, and no more"),
            ("a b --map", "--map lacks its value"),
            ("--map a --map b c d", "--map stands twice"),
            ("--start 5 a b", "there is no option --start"),
            ("-x a b", "there is no option -x"),
        ] {
            assert_eq!(parsed(line).unwrap_err(), wrong, "{line}");
        }
    }
}
