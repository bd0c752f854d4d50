//! Values, their images in a message, and conversions between their types.

use crate::wire::{Header, until_zero};
use std::io::Write;

/// The type of an element.
#[derive(Clone, Copy, Debug, PartialEq, Eq)]
pub enum Base {
    String,
    Int,
    Float,
    Enum,
    Char,
    Long,
    Double,
}

const BASES: [Base; 7] =
    [Base::String, Base::Int, Base::Float, Base::Enum, Base::Char, Base::Long, Base::Double];

impl Base {
    pub fn of(number: u16) -> Option<Base> {
        BASES.get(usize::from(number)).copied()
    }

    /// The bytes of an element.
    pub fn size(self) -> usize {
        match self {
            Base::String => 40,
            Base::Int | Base::Enum => 2,
            Base::Float | Base::Long => 4,
            Base::Char => 1,
            Base::Double => 8,
        }
    }

    fn has_numbers(self) -> bool {
        !matches!(self, Base::Float | Base::Double)
    }

    pub fn converts_to(self, to: Base) -> bool {
        self == to || (self.has_numbers() && to.has_numbers())
    }
}

#[derive(Clone, Copy)]
enum Form {
    Plain,
    Status,
    Time,
}

/// A type as a message names it: an element's type, and what stands before the elements.
#[derive(Clone, Copy)]
pub struct DataType {
    pub base: Base,
    form: Form,
    /// The bytes before the elements, padding included.
    front: u8,
    /// The bytes of an element.
    size: u8,
}

const fn plain(base: Base, size: u8) -> DataType {
    DataType { base, form: Form::Plain, front: 0, size }
}

const fn with_status(base: Base, size: u8, front: u8) -> DataType {
    DataType { base, form: Form::Status, front, size }
}

const fn with_time(base: Base, size: u8, front: u8) -> DataType {
    DataType { base, form: Form::Time, front, size }
}

const TYPES: [DataType; 21] = [
    plain(Base::String, 40),
    plain(Base::Int, 2),
    plain(Base::Float, 4),
    plain(Base::Enum, 2),
    plain(Base::Char, 1),
    plain(Base::Long, 4),
    plain(Base::Double, 8),
    with_status(Base::String, 40, 4),
    with_status(Base::Int, 2, 4),
    with_status(Base::Float, 4, 4),
    with_status(Base::Enum, 2, 4),
    with_status(Base::Char, 1, 5),
    with_status(Base::Long, 4, 4),
    with_status(Base::Double, 8, 8),
    with_time(Base::String, 40, 12),
    with_time(Base::Int, 2, 14),
    with_time(Base::Float, 4, 12),
    with_time(Base::Enum, 2, 14),
    with_time(Base::Char, 1, 15),
    with_time(Base::Long, 4, 12),
    with_time(Base::Double, 8, 16),
];

impl DataType {
    pub fn of(number: u16) -> Option<DataType> {
        TYPES.get(usize::from(number)).copied()
    }

    /// The bytes of an image of n elements, padded for a payload.
    pub fn payload_size(self, count: u32) -> usize {
        (usize::from(self.front) + count as usize * usize::from(self.size)).next_multiple_of(8)
    }
}

/// The alarm and the time stamp of a value.
#[derive(Clone, Copy, Default)]
pub struct Meta {
    pub status: u16,
    pub severity: u16,
    pub seconds: u32,
    pub nanos: u32,
}

/// A value of a record: its elements as they stand in a message, and what goes with them.
pub struct Value {
    pub meta: Meta,
    pub count: u32,
    pub bytes: Vec<u8>,
}

/// Why elements have no place in another type.
#[derive(Clone, Copy)]
pub enum Unfit {
    NoConvert,
    BadElement,
}

/// Puts a message with the image of a value of this base in a type: as many elements as the header says, first those that
/// are there, converted, and then zeros. A fault leaves all as it was.
pub fn put_shown(
    head: Header,
    value: &Value,
    base: Base,
    to: DataType,
    out: &mut Vec<u8>,
) -> Result<(), Unfit> {
    let (start, size) = (out.len(), to.payload_size(head.count));
    Header { size: size as u32, ..head }.put(out);
    let end = out.len() + size;
    put_front(to, &value.meta, out);
    let present = (head.count as usize * base.size()).min(value.bytes.len());
    if let Err(unfit) = put_elements(&value.bytes[..present], base, to.base, out) {
        out.truncate(start);
        return Err(unfit);
    }
    // Mostly only padding is left, which is cheaper in one piece.
    if end - out.len() < 8 {
        out.extend_from_slice(&[0; 8]);
        out.truncate(end);
    } else {
        out.resize(end, 0);
    }
    Ok(())
}

fn put_front(to: DataType, meta: &Meta, out: &mut Vec<u8>) {
    if let Form::Plain = to.form {
        return;
    }
    let end = out.len() + usize::from(to.front);
    out.extend_from_slice(&meta.status.to_be_bytes());
    out.extend_from_slice(&meta.severity.to_be_bytes());
    if let Form::Time = to.form {
        out.extend_from_slice(&meta.seconds.to_be_bytes());
        out.extend_from_slice(&meta.nanos.to_be_bytes());
    }
    out.resize(end, 0);
}

/// Puts these elements, converted, at the end.
pub fn put_elements(elements: &[u8], base: Base, to: Base, out: &mut Vec<u8>) -> Result<(), Unfit> {
    if base == to {
        out.extend_from_slice(elements);
        return Ok(());
    }
    put_converted(elements, base, to, out)
}

#[inline(never)]
fn put_converted(elements: &[u8], base: Base, to: Base, out: &mut Vec<u8>) -> Result<(), Unfit> {
    match base {
        Base::String => put_numbers(elements, to, out, |text: [u8; 40]| number_in(&text)),
        Base::Int => put_numbers(elements, to, out, |x| Some(i16::from_be_bytes(x).into())),
        Base::Enum => put_numbers(elements, to, out, |x| Some(u16::from_be_bytes(x).into())),
        Base::Char => put_numbers(elements, to, out, |x| Some(u8::from_be_bytes(x).into())),
        Base::Long => put_numbers(elements, to, out, |x| Some(i32::from_be_bytes(x).into())),
        Base::Float | Base::Double => Err(Unfit::NoConvert),
    }
}

fn put_numbers<const N: usize>(
    elements: &[u8],
    to: Base,
    out: &mut Vec<u8>,
    number: impl Fn([u8; N]) -> Option<i64>,
) -> Result<(), Unfit> {
    let numbers = elements.as_chunks().0.iter().map(|element| number(*element));
    match to {
        Base::String => put_all(numbers, out, |n| Some(text_of(n))),
        Base::Int => put_all(numbers, out, |n| Some(i16::try_from(n).ok()?.to_be_bytes())),
        Base::Enum => put_all(numbers, out, |n| Some(u16::try_from(n).ok()?.to_be_bytes())),
        Base::Char => put_all(numbers, out, |n| Some(u8::try_from(n).ok()?.to_be_bytes())),
        Base::Long => put_all(numbers, out, |n| Some(i32::try_from(n).ok()?.to_be_bytes())),
        Base::Float | Base::Double => Err(Unfit::NoConvert),
    }
}

fn put_all<const N: usize>(
    numbers: impl Iterator<Item = Option<i64>>,
    out: &mut Vec<u8>,
    element: impl Fn(i64) -> Option<[u8; N]>,
) -> Result<(), Unfit> {
    for number in numbers {
        out.extend_from_slice(&number.and_then(&element).ok_or(Unfit::BadElement)?);
    }
    Ok(())
}

/// The number that a text is: spaces, a minus or none, digits, spaces. One that fits no type is as good as another.
fn number_in(text: &[u8]) -> Option<i64> {
    let text = after_spaces(until_zero(text));
    let (is_negative, text) = match text.strip_prefix(b"-") {
        Some(rest) => (true, rest),
        None => (false, text),
    };
    let count = text.iter().take_while(|byte| byte.is_ascii_digit()).count();
    let (digits, rest) = text.split_at(count);
    if count == 0 || !after_spaces(rest).is_empty() {
        return None;
    }
    let number = digits
        .iter()
        .fold(0i64, |n, digit| n.saturating_mul(10).saturating_add(i64::from(digit - b'0')));
    Some(if is_negative { -number } else { number })
}

fn after_spaces(text: &[u8]) -> &[u8] {
    let count = text.iter().take_while(|&&byte| byte == b' ').count();
    &text[count..]
}

fn text_of(number: i64) -> [u8; 40] {
    let mut text = [0; 40];
    write!(&mut text[..], "{number}").expect("a number has at most 20 characters");
    text
}
