//! What a step shows of sixteen posts and of the index beside them (Req 13).

use std::collections::BTreeSet;

use crate::fields::natural;
use crate::posts::{Table, POSTS};
use crate::safety_coverage::those;

/// What goes before `index`, and changes it, or must not.
const BEHIND: [&str; 8] = [
    "a set-up",
    "a second set-up on its own channel",
    "a second set-up on another channel",
    "a release",
    "a refused set-up",
    "a refused release",
    "a batch",
    "a replay",
];

const OTHERS: [&str; 15] = [
    "index of no post",
    "index of sixteen posts",
    "index ?",
    "setup 15 A",
    "setup 16 R9",
    "release 15 A",
    "release 16 R9",
    "record 15 K",
    "record 16 R9",
    "replay with post 15",
    "replay of post 16",
    "R1 on a channel that a post has left",
    "R1 on a channel that was released",
    "set-up on a channel that another post has left",
    "set-up on a channel that another post released",
];

pub fn wanted() -> impl Iterator<Item = String> {
    let behind = BEHIND.into_iter().map(|shown| format!("index behind {shown}"));
    behind.chain(OTHERS.into_iter().map(str::to_string))
}

/// What came since the index was last asked for, and who left or released which channel, with nobody on it since.
#[derive(Default)]
pub struct Since {
    behind: BTreeSet<&'static str>,
    left: BTreeSet<(u32, u32)>,
    released: BTreeSet<(u32, u32)>,
}

impl Since {
    /// `table` is as it was before the step.
    pub fn shown(&mut self, table: &Table, step: &[u8], answer: &[u8]) -> Vec<String> {
        let fields: Vec<&[u8]> = step.split(|&byte| byte == b' ').collect();
        let Ok(answer) = std::str::from_utf8(answer) else {
            return Vec::new();
        };
        let number = |place: usize| fields.get(place).and_then(|field| natural(field)).unwrap_or(u32::MAX);
        match fields[0] {
            b"index" => self.by_index(answer),
            b"setup" => self.by_set_up(table, (number(1), number(2)), answer),
            b"release" => self.by_release(table, number(1), answer),
            b"record" => those(&[
                (number(1) == 15 && answer.starts_with('K'), "record 15 K"),
                (number(1) == 16 && answer == "R9", "record 16 R9"),
            ]),
            b"frame" | b"tick" if answer == "R1" => {
                let on = |of: &BTreeSet<(u32, u32)>| of.iter().any(|(channel, _)| *channel == number(1));
                those(&[
                    (on(&self.left), "R1 on a channel that a post has left"),
                    (on(&self.released), "R1 on a channel that was released"),
                ])
            }
            b"batch" if answer.starts_with('A') => self.after("a batch"),
            b"replay" if answer != "?" => {
                self.behind.insert("a replay");
                let line = |line: &str| line.split(' ').nth(1) == Some("15");
                those(&[
                    (answer.split('|').any(line), "replay with post 15"),
                    (answer == "SETUP R9" && of_16(fields[2]), "replay of post 16"),
                ])
            }
            _ => Vec::new(),
        }
    }

    fn after(&mut self, what: &'static str) -> Vec<String> {
        self.behind.insert(what);
        Vec::new()
    }

    fn by_index(&mut self, answer: &str) -> Vec<String> {
        let Some(places) = answer.strip_prefix("I ") else {
            return those(&[(answer == "?", "index ?")]);
        };
        let held = places.split(' ').filter(|place| *place != "-").count();
        let behind = std::mem::take(&mut self.behind).into_iter().map(|shown| format!("index behind {shown}"));
        behind.chain(those(&[(held == 0, "index of no post"), (held == POSTS, "index of sixteen posts")])).collect()
    }

    fn by_set_up(&mut self, table: &Table, (post, channel): (u32, u32), answer: &str) -> Vec<String> {
        if answer != "A" {
            self.behind.extend(answer.starts_with('R').then_some("a refused set-up"));
            return those(&[(post == 16 && answer == "R9", "setup 16 R9")]);
        }
        let from = table.post(post).ok().map(|post| post.channel);
        self.behind.insert(match from {
            None => "a set-up",
            Some(from) if from == channel => "a second set-up on its own channel",
            Some(_) => "a second set-up on another channel",
        });
        let by_another = |of: &BTreeSet<(u32, u32)>| of.iter().any(|entry| entry.0 == channel && entry.1 != post);
        let shown = those(&[
            (post == 15, "setup 15 A"),
            (by_another(&self.left), "set-up on a channel that another post has left"),
            (by_another(&self.released), "set-up on a channel that another post released"),
        ]);
        self.left.extend(from.map(|from| (from, post)));
        self.left.retain(|entry| entry.0 != channel);
        self.released.retain(|entry| entry.0 != channel);
        shown
    }

    fn by_release(&mut self, table: &Table, post: u32, answer: &str) -> Vec<String> {
        self.behind.extend(answer.starts_with('R').then_some("a refused release"));
        if let (Ok(held), "A") = (table.post(post), answer) {
            self.behind.insert("a release");
            self.released.insert((held.channel, post));
        }
        those(&[(post == 15 && answer == "A", "release 15 A"), (post == 16 && answer == "R9", "release 16 R9")])
    }
}

/// Whether the first set-up that has no post is that of post 16.
fn of_16(set_ups: &[u8]) -> bool {
    let posts = set_ups.split(|&byte| byte == b';').filter_map(|set_up| set_up.split(|&byte| byte == b',').next());
    posts.filter_map(natural).find(|post: &u32| *post as usize >= POSTS) == Some(16)
}

#[cfg(test)]
mod tests {
    use super::*;
    use crate::desk::{self, Desk};

    /// What the last step of a story shows, behind a set-up and an index.
    fn shows(story: &str) -> Vec<String> {
        let (mut ahead, mut before, mut since, mut shown) = (Desk::new(), Desk::new(), Since::default(), Vec::new());
        for step in ["setup 0 4 5000 1000 500 500", "index"].into_iter().chain(story.lines()) {
            let answer = desk::answer(&mut ahead, step.as_bytes());
            shown = since.shown(&before.table, step.as_bytes(), answer.as_bytes());
            desk::answer(&mut before, step.as_bytes());
        }
        shown
    }

    #[test]
    fn each_is_shown_by_a_story_of_its_own() {
        let mut met = BTreeSet::new();
        let crowd: Vec<String> = (1..16).map(|post| format!("setup {post} {} 1 1 1 100", post + 10)).collect();
        let crowd = format!("index\n{}\nindex", crowd.join("\n"));
        for (story, wanted) in [
            ("index", &[][..]),
            ("setup 1 5 1 1 1 100\nindex", &["index behind a set-up"]),
            ("setup 0 4 1 1 1 100\nindex", &["index behind a second set-up on its own channel"]),
            ("setup 0 5 1 1 1 100\nindex", &["index behind a second set-up on another channel"]),
            ("release 0\nindex", &["index behind a release", "index of no post"]),
            ("setup 1 4 1 1 1 100\nindex", &["index behind a refused set-up"]),
            ("release 1\nindex", &["index behind a refused release"]),
            ("batch 00040009 1\nindex", &["index behind a batch"]),
            ("batch 00040009 0\nindex", &[]),
            ("replay - 1,5,1,1,1,100\nindex", &["index behind a replay"]),
            ("replay - 1,5,1,1,1\nindex", &[]),
            (&crowd, &["index behind a set-up", "index of sixteen posts"]),
            ("index 0", &["index ?"]),
            ("setup 15 5 1 1 1 100", &["setup 15 A"]),
            ("setup 16 5 1 1 1 100", &["setup 16 R9"]),
            ("setup 17 5 1 1 1 100", &[]),
            ("setup 15 5 1 1 1 100\nrelease 15", &["release 15 A"]),
            ("release 15", &[]),
            ("release 16", &["release 16 R9"]),
            ("setup 15 5 1 1 1 100\nrecord 15", &["record 15 K"]),
            ("record 15", &[]),
            ("record 16", &["record 16 R9"]),
            ("replay 00040009 15,4,1,1,1,100", &["replay with post 15"]),
            ("replay 00040009 14,4,1,1,1,100", &[]),
            ("replay 00040009 15,4,1,1,1,100;16,5,1,1,1,100;17,5,1,1,1,100", &["replay of post 16"]),
            ("replay 00040009 17,4,1,1,1,100;16,5,1,1,1,100", &[]),
            ("setup 0 5 1 1 1 100\ntick 4 0", &["R1 on a channel that a post has left"]),
            ("setup 0 5 1 1 1 100\ntick 5 0", &[]),
            ("setup 0 4 1 1 1 100\ntick 3 0", &[]),
            ("release 0\ntick 4 0", &["R1 on a channel that was released"]),
            ("setup 0 5 1 1 1 100\nsetup 1 4 1 1 1 100", &["set-up on a channel that another post has left"]),
            ("setup 0 5 1 1 1 100\nsetup 0 4 1 1 1 100", &[]),
            ("release 0\nsetup 1 4 1 1 1 100", &["set-up on a channel that another post released"]),
            ("release 0\nsetup 0 4 1 1 1 100", &[]),
            ("release 0\nsetup 1 4 1 1 1 100\nsetup 1 5 1 1 1 100\nsetup 2 5 1 1 1 100", &[]),
        ] {
            assert_eq!(shows(story), wanted, "{story}");
            met.extend(wanted.iter().map(|shown| shown.to_string()));
        }
        assert_eq!(super::wanted().filter(|shown| !met.contains(shown)).count(), 0);
    }
}
