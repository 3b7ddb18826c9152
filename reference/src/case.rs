//! A case of `test_vectors` is a line: the operation's name and then fields, each
//! a word and the numbers up to the next word, in decimal and parted by one
//! space; `v*n` stands for n numbers v. An absent field has no number, or 0.

use std::fmt::Display;

/// A case: see `vectors.rs` for the fields of each operation.
#[derive(Clone)]
pub struct Case<'a> {
    pub name: &'a str,
    fields: Vec<(&'a str, Vec<u32>)>,
}

impl<'a> Case<'a> {
    /// A case without fields.
    pub fn new(name: &'a str) -> Case<'a> {
        let fields = Vec::new();
        Case { name, fields }
    }

    /// The case with this field, in the place of one of the same name.
    pub fn with_list(mut self, name: &'a str, numbers: Vec<u32>) -> Case<'a> {
        match self.fields.iter_mut().find(|field| field.0 == name) {
            Some(field) => field.1 = numbers,
            None => self.fields.push((name, numbers)),
        }
        self
    }

    /// The case with a field of one number.
    pub fn with<N: TryInto<u32>>(self, name: &'a str, number: N) -> Case<'a> {
        let number = number.try_into().unwrap_or(u32::MAX);
        self.with_list(name, vec![number])
    }

    /// The case with these greys: a plate.
    pub fn painted(self, greys: &[u16]) -> Case<'a> {
        self.with_list("greys", greys.iter().map(|&grey| grey.into()).collect())
    }

    /// The case with these bytes: a record or a file.
    pub fn on(self, bytes: &[u8]) -> Case<'a> {
        self.with_list("bytes", bytes.iter().map(|&byte| byte.into()).collect())
    }

    /// The numbers of a field.
    pub fn list(&self, name: &str) -> &[u32] {
        let field = self.fields.iter().find(|field| field.0 == name);
        field.map_or(&[], |field| &field.1)
    }

    /// The number of a field.
    pub fn number(&self, name: &str) -> u32 {
        self.list(name).first().copied().unwrap_or(0)
    }

    /// The bytes of the case.
    pub fn bytes(&self) -> Vec<u8> {
        self.list("bytes").iter().map(|&byte| byte as u8).collect()
    }

    /// The greys of the case.
    pub fn greys(&self) -> Vec<u16> {
        self.list("greys").iter().map(|&grey| grey as u16).collect()
    }

    /// A buffer with as many places as a field says, each holding `value`.
    pub fn lent<T: Clone>(&self, name: &str, value: T) -> Vec<T> {
        vec![value; self.number(name) as usize]
    }

    /// The case that a line spells.
    pub fn of(line: &'a str) -> Case<'a> {
        let mut words = line.split(' ').peekable();
        let mut case = Case::new(words.next().unwrap_or(""));
        while let Some(name) = words.next() {
            let mut numbers = Vec::new();
            while let Some(word) = words.next_if(|word| word.starts_with(char::is_numeric)) {
                numbers.extend(run(word));
            }
            case = case.with_list(name, numbers);
        }
        case
    }

    /// The line that spells the case, the bytes or greys last.
    pub fn line(&self) -> String {
        let mut fields: Vec<_> = self.fields.iter().collect();
        fields.sort_by_key(|field| ["bytes", "greys"].contains(&field.0));
        let spelled = fields.into_iter();
        let spelled: String = spelled
            .map(|(name, numbers)| format!(" {name}{}", listed(numbers)))
            .collect();
        format!("{}{spelled}\n", self.name)
    }
}

/// The number that a word spells.
fn value(word: &str) -> u32 {
    word.parse().expect("a number below 4,294,967,296")
}

/// The numbers that `v` or `v*n` stands for.
fn run(word: &str) -> Vec<u32> {
    let (number, count) = word.split_once('*').unwrap_or((word, "1"));
    vec![value(number); value(count) as usize]
}

/// Numbers with a space in front of each; equal ones in a row as `v*n`.
pub fn listed<T: Display + PartialEq>(numbers: impl IntoIterator<Item = T>) -> String {
    let mut runs: Vec<(T, usize)> = Vec::new();
    for number in numbers {
        match runs.last_mut() {
            Some((value, count)) if *value == number => *count += 1,
            _ => runs.push((number, 1)),
        }
    }
    let spelled = runs.iter().map(|(value, count)| match count {
        1 => format!(" {value}"),
        _ => format!(" {value}*{count}"),
    });
    spelled.collect()
}
