//! A request's fields as values that can be changed and written.

use crate::form::{Call, Kind, Request};
use crate::protocol::{bytes, list, show_bytes};
use std::io::Write;

#[derive(Clone)]
pub enum Value {
    /// Bytes; also a reference row, with 0 for `-`.
    Bytes(Vec<u8>),
    /// A list or one number; `None` is `-`.
    Numbers(Vec<Option<i128>>),
    Rows(Vec<Vec<u8>>),
    /// A word, or the `-` of an ML.
    Word(String),
}

impl Value {
    /// Reads a field that is of its kind's form.
    fn of(kind: Kind, field: &str) -> Self {
        let word = || Self::Word(field.to_string());
        match kind {
            Kind::YesNo | Kind::Pattern | Kind::Mode | Kind::Step | Kind::Way | Kind::SessionStep => word(),
            Kind::ReferenceRow => {
                let found = list(field, |base| Some(bytes(base).map_or(0, |one| one[0])));
                Self::Bytes(found.unwrap_or_default())
            }
            Kind::Reads | Kind::Aligned => list(field, bytes).map_or_else(word, Self::Rows),
            Kind::Counts | Kind::Words | Kind::Places | Kind::SignedPlaces | Kind::Place => {
                Self::numbers(field)
            }
            Kind::Start | Kind::CutStart | Kind::Length | Kind::Lengths | Kind::Flags => Self::numbers(field),
            Kind::BaseCount | Kind::RecordRoom => Self::numbers(field),
            _ => bytes(field).map_or_else(word, Self::Bytes),
        }
    }

    fn numbers(field: &str) -> Self {
        Self::Numbers(list(field, |item| Some(item.parse().ok())).unwrap_or_default())
    }

    /// One number.
    #[must_use]
    pub fn number(number: usize) -> Self {
        Self::Numbers(vec![Some(number as i128)])
    }

    /// How many bytes or items it has.
    #[must_use]
    pub fn len(&self) -> usize {
        match self {
            Self::Bytes(bytes) => bytes.len(),
            Self::Numbers(numbers) => numbers.len(),
            Self::Rows(rows) => rows.len(),
            Self::Word(_) => 0,
        }
    }

    /// The bytes; none if the value is something else.
    #[must_use]
    pub fn bytes(&self) -> &[u8] {
        if let Self::Bytes(bytes) = self { bytes } else { &[] }
    }

    fn write(&self, kind: Kind, line: &mut Vec<u8>) {
        match self {
            Self::Word(word) => line.extend(word.as_bytes()),
            Self::Bytes(bases) if kind == Kind::ReferenceRow => {
                write_list(bases, line, |&base, line| match base {
                    0 => line.push(b'-'),
                    _ => line.extend(show_bytes(&[base]).as_bytes()),
                });
            }
            Self::Bytes(bytes) => line.extend(show_bytes(bytes).as_bytes()),
            Self::Rows(rows) => write_list(rows, line, |row, line| line.extend(show_bytes(row).as_bytes())),
            Self::Numbers(numbers) => write_list(numbers, line, |number, line| match number {
                None => line.push(b'-'),
                Some(number) => write_number(*number, line),
            }),
        }
    }
}

fn write_number(number: i128, line: &mut Vec<u8>) {
    match u8::try_from(number) {
        Ok(digit @ 0..10) => line.push(b'0' + digit),
        _ => write!(line, "{number}").expect("a Vec takes all"),
    }
}

fn write_list<T>(items: &[T], line: &mut Vec<u8>, write: impl Fn(&T, &mut Vec<u8>)) {
    if items.is_empty() {
        line.push(b'*');
    }
    for (place, item) in items.iter().enumerate() {
        if place > 0 {
            line.push(b',');
        }
        write(item, line);
    }
}

/// A request of the form, taken apart.
pub struct Values {
    pub call: &'static Call,
    pub fields: Vec<(Kind, Value)>,
    /// The text behind the `@`.
    pub room: Option<String>,
}

impl Values {
    /// The values of a line; None if it is no request, or the table of calls doesn't have it.
    #[must_use]
    pub fn of(line: &str) -> Option<Self> {
        let request = Request::of(line);
        let call = Call::named(request.name).filter(|call| request.is_of_form(call, line))?;
        let fields = call.kinds().zip(request.fields).map(|(kind, field)| (kind, Value::of(kind, field)));
        Some(Self { call, fields: fields.collect(), room: request.room.map(str::to_string) })
    }

    /// The place of the first field of that kind.
    #[must_use]
    pub fn place_of(&self, wanted: Kind) -> Option<usize> {
        self.fields.iter().position(|(kind, _)| *kind == wanted)
    }

    /// The request as a line, without a room.
    pub fn write(&self, line: &mut Vec<u8>) {
        line.extend(self.call.name.as_bytes());
        for (kind, value) in &self.fields {
            line.push(b'\t');
            value.write(*kind, line);
        }
    }
}
