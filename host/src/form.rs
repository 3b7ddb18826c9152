//! The two forms of a record.

use std::fmt;

/// In which form a record is. Both are read, and the new one is written.
///
/// ```
/// use livukoe::RecordForm;
///
/// assert_eq!(RecordForm::from_name("old"), Some(RecordForm::Old));
/// assert_eq!(RecordForm::New.to_string(), "new");
/// ```
#[derive(Clone, Copy, Debug, PartialEq, Eq, Hash)]
pub enum RecordForm {
    /// Without a greatest grey, which is 255.
    Old,
    /// With the fields 0, 2 and the greatest grey in front of those of the old form.
    New,
}

impl RecordForm {
    /// Both forms.
    pub const ALL: [RecordForm; 2] = [RecordForm::Old, RecordForm::New];

    /// The form with this name, old or new.
    pub fn from_name(name: &str) -> Option<RecordForm> {
        RecordForm::ALL.into_iter().find(|form| form.name() == name)
    }

    /// The form's name.
    pub fn name(self) -> &'static str {
        match self {
            RecordForm::Old => "old",
            RecordForm::New => "new",
        }
    }
}

/// Its name.
impl fmt::Display for RecordForm {
    fn fmt(&self, f: &mut fmt::Formatter) -> fmt::Result {
        f.pad(self.name())
    }
}
