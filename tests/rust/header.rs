//! ffi.rs says what the header says: every size and offset that the header asserts, the numbers, and the functions with as many parameters.
use crate::ffi::*;
use std::mem::{size_of, MaybeUninit};
use std::ptr::addr_of;

const HEADER: &str = include_str!("../../include/rokemaipu.h");

macro_rules! offset {
    ($type:ident, $field:ident) => {{
        let whole = MaybeUninit::<$type>::uninit();
        let at = whole.as_ptr();
        // no field is read
        unsafe { addr_of!((*at).$field) as usize - at as usize }
    }};
}

macro_rules! fields {
    ($type:ident as $name:literal: $($field:ident)*) => {{
        let mut lines = vec![format!("ROKEMAIPU_IS(sizeof(rokemaipu_{}), {});", $name, size_of::<$type>())];
        $(lines.push(format!("ROKEMAIPU_IS(offsetof(rokemaipu_{}, {}), {});", $name, stringify!($field), offset!($type, $field)));)*
        lines
    }};
}

fn sizes() {
    let ours: Vec<String> = [
        vec![format!("ROKEMAIPU_IS(sizeof(bool), {});", size_of::<bool>()), format!("ROKEMAIPU_IS(sizeof(size_t), {});", size_of::<usize>())],
        fields!(Slot as "slot": known kind time raw),
        fields!(Limits as "limits": voltage charge discharge silence sensor interface),
        fields!(Session as "session": opened since first kept),
        fields!(Head as "head": used channel limits heard counts time controller parameters session),
        vec![format!("ROKEMAIPU_IS(ROKEMAIPU_COUNTS, {});", COUNTS)],
        fields!(Post as "post": head latest),
        fields!(Table as "table": posts index refused),
        vec![format!("ROKEMAIPU_IS(ROKEMAIPU_CHANNELS, {});", CHANNELS)],
        fields!(Replay as "replay": table count course),
    ]
    .concat();
    let theirs: Vec<&str> = HEADER.lines().filter(|line| line.starts_with("ROKEMAIPU_IS(")).map(|line| line.split(" /*").next().unwrap()).collect();
    assert_eq!(ours, theirs);
}

fn numbers() {
    for (name, number) in [
        ("#define ROKEMAIPU_POSTS ", POSTS),
        ("#define ROKEMAIPU_KINDS ", KINDS),
        ("#define ROKEMAIPU_PLACES ", PLACES),
        ("#define ROKEMAIPU_FINDINGS ", FINDINGS),
        ("    ROKEMAIPU_KEPT = ", KEPT),
        ("#define ROKEMAIPU_SIGNALS ", SIGNALS),
        ("#define ROKEMAIPU_RECORD_BYTES ", RECORD_BYTES),
        ("#define ROKEMAIPU_BATCH_BYTES ", BATCH_BYTES),
        ("#define ROKEMAIPU_LINE_BYTES ", LINE_BYTES),
        ("#define ROKEMAIPU_CHANNELS ", CHANNELS),
        ("#define ROKEMAIPU_COMPARE_RECORDS ", COMPARE_RECORDS),
        ("    ROKEMAIPU_COMPARED_NUMBERS = ", COMPARED_NUMBERS),
        ("    ROKEMAIPU_NUMBERS = ", NUMBERS),
        ("    ROKEMAIPU_TIMES = ", TIMES),
        ("    ROKEMAIPU_COUNTS = ", COUNTS),
        ("    ROKEMAIPU_ENTRY_NUMBERS = ", ENTRY_NUMBERS),
        ("#define ROKEMAIPU_REFUSED ", REFUSED as usize),
        ("    ROKEMAIPU_NEWER = ", NEWER as usize),
        ("    ROKEMAIPU_OLDER = ", OLDER as usize),
    ] {
        let said = HEADER.lines().find_map(|line| line.strip_prefix(name)).unwrap_or_else(|| panic!("the header has no line {name}"));
        let digits: String = said.chars().take_while(char::is_ascii_digit).collect();
        assert_eq!(digits.parse(), Ok(number), "{name}");
    }
}

/// A function's name and what it takes: the header's declaration of `text`, or the one of ffi.rs.
fn declared(text: &str, start: &str) -> Option<(String, usize)> {
    let rest = text.trim_start().strip_prefix(start)?;
    let (name, rest) = rest.split_once('(')?;
    let name = name.rsplit(' ').next()?;
    let taken = rest.split_once(')')?.0;
    (name.starts_with("rokemaipu_")).then(|| (name.to_string(), if taken.is_empty() || taken == "void" { 0 } else { taken.split(',').count() }))
}

fn functions() {
    let mut theirs: Vec<_> = HEADER.lines().filter(|line| line.starts_with(|c: char| c.is_ascii_lowercase()) && !line.starts_with("static")).filter_map(|line| declared(line, "")).collect();
    let mut ours: Vec<_> = include_str!("ffi.rs").lines().filter_map(|line| declared(line, "pub fn ")).collect();
    theirs.sort();
    ours.sort();
    assert_eq!(ours, theirs);
}

pub fn same() {
    sizes();
    numbers();
    functions();
}
