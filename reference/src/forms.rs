//! Converting a record to the old form and to the new one.

use crate::record::{accept_record, put, Form, RecordLength, OLD_GREATEST};

/// Gives a record in the old form, in which every greatest grey is 255.
pub fn to_old_form(record: &[u8], out: &mut [u8], work: &mut [u32]) -> RecordLength {
    RecordLength::of(converted(record, Form::Old, out, work))
}

/// Gives a record in the new form.
pub fn to_new_form(record: &[u8], out: &mut [u8], work: &mut [u32]) -> RecordLength {
    RecordLength::of(converted(record, Form::New, out, work))
}

/// Converting with its conditions: as reading up to 24, then 30, then 5. A record is
/// the one of its plate in its form, so one already in the form wanted comes out as
/// it was.
fn converted(record: &[u8], form: Form, out: &mut [u8], work: &mut [u32]) -> Result<usize, u32> {
    let accepted = accept_record(record, work)?;
    if form == Form::Old && accepted.greatest != OLD_GREATEST {
        return Err(30);
    }
    let wanted = accepted.spelled_in(form);
    put(&wanted, out)?;
    Ok(wanted.len())
}
