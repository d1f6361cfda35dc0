//! The typed pages against what a program took out of the maker's documents (tests/pages): signal by signal, in their order.

use std::path::Path;

use crate::older_pages::OLDER_PAGES;
use crate::pages::{self, Page, Signal, Unit, NEWER};
use crate::safety_pages::SAFETY_PAGES;

/// Message, identifier, bytes, signal, start, width, whether it is signed, scale, offset, labels.
type Row = [String; 10];

fn typed(page: &Page, signal: &Signal) -> Row {
    let (scale, offset) = match signal.unit {
        Unit::Volts | Unit::Amps | Unit::Tenths => ("0.1", "0"),
        Unit::Celsius => ("1", "-40"),
        Unit::KiloOhms | Unit::KiloWattHours => ("2", "0"),
        Unit::None => ("1", "0"),
    };
    let labels = signal.labels.unwrap_or_default().iter().map(|(number, name)| format!("{name}={number}"));
    [
        page.name.to_string(),
        format!("0x{:x}", page.id),
        page.len.to_string(),
        signal.name.to_string(),
        signal.start.to_string(),
        signal.width.to_string(),
        signal.signed.to_string(),
        scale.to_string(),
        offset.to_string(),
        in_order(labels.collect()),
    ]
}

/// 004 has its labels from the highest number down, and calls a special number of a probe one, which is none (reading R4).
fn in_order(mut labels: Vec<String>) -> String {
    labels.retain(|label| label != "-" && label != "TempSensorNotUsed=8191");
    labels.sort();
    labels.join(";")
}

fn typed_rows<'a>(pages: impl Iterator<Item = &'a Page>) -> Vec<Row> {
    pages.flat_map(|page| page.signals.iter().map(move |signal| typed(page, signal))).collect()
}

/// The document's rows of the messages that are typed.
fn taken_out(document: &str, typed: &[Row]) -> Vec<Row> {
    let path = Path::new(env!("CARGO_MANIFEST_DIR")).join("../tests/pages").join(format!("{document}.txt"));
    let text = std::fs::read_to_string(&path).unwrap_or_else(|error| panic!("{}: {error}", path.display()));
    let rows = text.lines().map(|line| {
        let fields: Vec<&str> = line.split(' ').collect();
        let signed = fields[6].split(',').any(|part| part == "Signed").to_string();
        let [message, id, bytes, signal, start, width] = [0, 1, 2, 3, 4, 5].map(|place| fields[place].to_string());
        let [scale, offset] = [7, 8].map(|place| fields[place].to_string());
        let labels = in_order(fields[9].split(';').map(str::to_string).collect());
        [message, id, bytes, signal, start, width, signed, scale, offset, labels]
    });
    rows.filter(|row| typed.iter().any(|typed| typed[1] == row[1])).collect()
}

#[test]
fn each_signal_as_its_document_has_it() {
    let newer = typed_rows(pages::of(NEWER).filter(|page| page.extended));
    let (older, safety) = (typed_rows(OLDER_PAGES.iter()), typed_rows(SAFETY_PAGES.iter()));
    for (document, typed, count) in [("000", newer, 97), ("001", older, 78), ("004", safety, 31)] {
        assert_eq!(typed.len(), count, "{document}");
        assert_eq!(typed, taken_out(document, &typed), "{document}");
    }
}
