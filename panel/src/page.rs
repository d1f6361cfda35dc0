//! The page: one document with its style and its script in it, which asks nothing of any other host.

use std::fs::File;
use std::io::{self, Read};

const PAGE: &str = include_str!("../page/panel.html");
const STYLE: &str = include_str!("../page/panel.css");
const SCRIPT: &str = include_str!("../page/panel.js");

/// A number that is used once, by which the browser knows the page's own style and script.
pub struct Nonce(String);

impl Nonce {
    pub fn new() -> io::Result<Nonce> {
        let mut bytes = [0; 16];
        File::open("/dev/urandom")?.read_exact(&mut bytes)?;
        Ok(Nonce(bytes.iter().map(|byte| format!("{byte:02x}")).collect()))
    }

    pub fn policy(&self) -> String {
        let own = format!("'nonce-{}'", self.0);
        format!(
            "default-src 'none'; script-src {own}; style-src {own}; connect-src 'self'; base-uri 'none'; form-action 'none'; \
             frame-ancestors 'none'"
        )
    }

    pub fn page(&self) -> String {
        PAGE.replace("NONCE", &self.0).replace("/*STYLE*/", STYLE).replace("/*SCRIPT*/", SCRIPT)
    }
}

#[cfg(test)]
mod tests {
    use super::*;

    #[test]
    fn one_document() {
        let (nonce, other) = (Nonce::new().unwrap(), Nonce::new().unwrap());
        assert_ne!(nonce.0, other.0);
        let page = nonce.page();
        assert_eq!(page.matches(&nonce.0).count(), 2);
        assert!(page.contains(STYLE) && page.contains(SCRIPT));
        for outside in ["http:", "https:", "src=", "innerHTML", "@import", "url("] {
            assert!(!page.contains(outside), "{outside}");
        }
    }
}
