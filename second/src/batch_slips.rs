//! Wrong readings of Req 07.

use crate::batch::{self, fed, judged, word, Batcher, FEW_PLACES, MOST_BYTES, NO_RECORD};
use crate::codec::Refusal;
use crate::desk::Desk;
use crate::label_slips::dropped;
use crate::log::{self, Ending};
use crate::posts::Table;

const WRONG_BATCHERS: [(&str, Batcher); 10] = [
    ("batch-fed", feeds_before_the_rest_is_judged),
    ("batch-cut", cut_piece_let_pass),
    ("batch-order", places_before_records),
    ("batch-next", answers_one_place_on),
    ("batch-start", word_without_the_start),
    ("batch-edge", refused_at_4096_itself),
    ("batch-size", records_before_the_size),
    ("batch-behind", places_behind_the_records_cleared),
    ("batch-cleared", refused_batch_clears_the_answers),
    ("batch-stops", stops_at_a_refused_record),
];

pub fn names() -> impl Iterator<Item = &'static str> {
    WRONG_BATCHERS.map(|(name, _)| name).into_iter()
}

/// `None` where there is no slip of that name.
pub fn put_into(desk: &mut Desk, name: &str) -> Option<()> {
    desk.batcher = WRONG_BATCHERS.iter().find(|(known, _)| *known == name)?.1;
    Some(())
}

/// What stands before a malformed or cut record has been fed by then.
fn feeds_before_the_rest_is_judged(table: &mut Table, bytes: &[u8], answers: &mut [u32]) -> Result<usize, Refusal> {
    let right = judged(bytes, answers.len());
    if let Err(NO_RECORD) = right {
        fed(table, &log::read(bytes), &mut [], word);
    }
    batch::batch(table, bytes, answers)
}

fn cut_piece_let_pass(table: &mut Table, bytes: &[u8], answers: &mut [u32]) -> Result<usize, Refusal> {
    let log = log::read(bytes);
    let whole = if log.ending == Ending::Cut { &bytes[..log.at] } else { bytes };
    batch::batch(table, if bytes.len() > MOST_BYTES { bytes } else { whole }, answers)
}

fn places_before_records(table: &mut Table, bytes: &[u8], answers: &mut [u32]) -> Result<usize, Refusal> {
    let few = answers.len() < log::read(bytes).records.len();
    match judged(bytes, answers.len()) {
        Err(NO_RECORD) if few => Err(FEW_PLACES),
        _ => batch::batch(table, bytes, answers),
    }
}

/// The last one where there is no place behind it.
fn answers_one_place_on(table: &mut Table, bytes: &[u8], answers: &mut [u32]) -> Result<usize, Refusal> {
    let log = judged(bytes, answers.len())?;
    let from = usize::from(log.records.len() < answers.len());
    fed(table, &log, &mut answers[from..], word);
    Ok(log.records.len())
}

fn word_without_the_start(table: &mut Table, bytes: &[u8], answers: &mut [u32]) -> Result<usize, Refusal> {
    let log = judged(bytes, answers.len())?;
    fed(table, &log, answers, |answer| word(dropped(answer)));
    Ok(log.records.len())
}

fn refused_at_4096_itself(table: &mut Table, bytes: &[u8], answers: &mut [u32]) -> Result<usize, Refusal> {
    if bytes.len() == MOST_BYTES {
        return Err(batch::TOO_LARGE);
    }
    batch::batch(table, bytes, answers)
}

fn records_before_the_size(table: &mut Table, bytes: &[u8], answers: &mut [u32]) -> Result<usize, Refusal> {
    if log::read(bytes).ending != Ending::End {
        return Err(NO_RECORD);
    }
    batch::batch(table, bytes, answers)
}

fn places_behind_the_records_cleared(table: &mut Table, bytes: &[u8], answers: &mut [u32]) -> Result<usize, Refusal> {
    let count = batch::batch(table, bytes, answers)?;
    answers[count..].fill(0);
    Ok(count)
}

fn refused_batch_clears_the_answers(table: &mut Table, bytes: &[u8], answers: &mut [u32]) -> Result<usize, Refusal> {
    let outcome = batch::batch(table, bytes, answers);
    if outcome.is_err() {
        answers.fill(0);
    }
    outcome
}

fn stops_at_a_refused_record(table: &mut Table, bytes: &[u8], answers: &mut [u32]) -> Result<usize, Refusal> {
    let log = judged(bytes, answers.len())?;
    for (record, place) in log.records.iter().zip(answers.iter_mut()) {
        let answer = table.feed(record);
        *place = word(answer);
        if answer.is_err() {
            break;
        }
    }
    Ok(log.records.len())
}
