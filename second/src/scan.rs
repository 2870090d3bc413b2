//! The scan of a message: the first fault, or the measure of its table.

use crate::answers::{
    Fault, BAD_BITS, BAD_EDT, BAD_REPEAT, CUT_INNER, CUT_OUTERMOST, MOST_NESTED, RESERVED_TYPE,
    SEVERAL_KINDS, TOO_DEEP,
};
use crate::classes::{class_of, Class};
use crate::kinds::{elements, Element};
use crate::summary::Summary;
use crate::{bits, heads, integers, sizes, stretch};
use std::ops::Range;

/// Scans a whole message.
pub fn message(bytes: &[u8]) -> Result<Summary, Fault> {
    run(bytes, 0, 0)
}

/// Scans the objects from `at` to the end of `bytes`, which is the end of the
/// enclosing object. They stand inside `inside` containers.
fn run(bytes: &[u8], mut at: usize, inside: usize) -> Result<Summary, Fault> {
    let mut sum = Summary::NOTHING;
    while at < bytes.len() {
        let rest = &bytes[at..];
        let class = class_of(rest[0]);
        at = match class {
            Class::Padding => at + stretch::of_padding(rest),
            Class::Char7 => at + leaves(&mut sum, elements::CHAR, stretch::of_char7(rest)),
            Class::Sinteger => at + leaves(&mut sum, elements::INT, stretch::of_sinteger(rest)),
            Class::Bool => at + leaves(&mut sum, elements::BOOL, 1),
            Class::Empty => at + leaves(&mut sum, elements::EMPTY, 1),
            Class::Xtra => at + leaves(&mut sum, elements::XTRA, 1),
            Class::Linteger => long_integer(&mut sum, bytes, at, inside)?,
            Class::Sbitstr => short_bits(&mut sum, bytes, at, inside)?,
            Class::Lbitstr => long_bits(&mut sum, bytes, at, inside)?,
            Class::Reserved => return Err(Fault::new(RESERVED_TYPE, at)),
            _ => container(&mut sum, class, bytes, at, inside)?,
        };
    }
    Ok(sum)
}

#[inline(always)]
fn leaves(sum: &mut Summary, element: Element, count: usize) -> usize {
    sum.add_leaves(element, count);
    count
}

/// The fault of an object at `at` that needs so many bytes past the end.
#[cold]
fn cut(at: usize, inside: usize, wanting: usize) -> Fault {
    let number = if inside == 0 {
        CUT_OUTERMOST
    } else {
        CUT_INNER
    };
    Fault::cut(number, at, wanting)
}

#[inline(always)]
fn long_integer(sum: &mut Summary, bytes: &[u8], at: usize, inside: usize) -> Result<usize, Fault> {
    let after = at + 1 + integers::data_width(bytes[at]);
    if after > bytes.len() {
        return Err(cut(at, inside, after - bytes.len()));
    }
    sum.add_leaves(elements::INT, 1);
    Ok(after)
}

#[inline(always)]
fn short_bits(sum: &mut Summary, bytes: &[u8], at: usize, inside: usize) -> Result<usize, Fault> {
    let width = integers::data_width(bytes[at]);
    let after = at + 1 + width;
    if after > bytes.len() {
        return Err(cut(at, inside, after - bytes.len()));
    }
    if bytes[at + 1] == 0 {
        return Err(Fault::new(BAD_BITS, at));
    }
    let no_bits = width == 1 && bytes[at + 1] == 1;
    sum.add_bits(if no_bits { 0 } else { 1 });
    Ok(after)
}

fn long_bits(sum: &mut Summary, bytes: &[u8], at: usize, inside: usize) -> Result<usize, Fault> {
    let contents = sizes::contents(bytes, at).map_err(|wanting| cut(at, inside, wanting))?;
    let end = contents.end;
    let stream = bits::long_stream(bytes, at, contents)?;
    sum.add_bits(bits::words_for(stream.bits));
    Ok(end)
}

/// Scans the container at `at` and adds what it gives to the enclosing run.
#[inline(always)]
fn container(
    sum: &mut Summary,
    class: Class,
    bytes: &[u8],
    at: usize,
    inside: usize,
) -> Result<usize, Fault> {
    if class == Class::Repeat && inside == 0 {
        return Err(Fault::new(BAD_REPEAT, at));
    }
    if inside == MOST_NESTED {
        return Err(Fault::new(TOO_DEEP, at));
    }
    let contents = sizes::contents(bytes, at).map_err(|wanting| cut(at, inside, wanting))?;
    let end = contents.end;
    match class {
        Class::String => sum.add_string(contents.len() as u64),
        Class::Repeat => repeat(sum, bytes, at, contents, inside)?,
        _ => structure(sum, class, bytes, at, contents, inside)?,
    }
    Ok(end)
}

#[inline(always)]
fn repeat(
    sum: &mut Summary,
    bytes: &[u8],
    at: usize,
    contents: Range<usize>,
    inside: usize,
) -> Result<(), Fault> {
    let within = &bytes[..contents.end];
    let count = heads::count(within, contents.start, Fault::new(BAD_REPEAT, at))?;
    let pattern = run(within, count.after, inside + 1)?;
    sum.add_repeated(&pattern, count.value);
    Ok(())
}

#[inline(always)]
fn structure(
    sum: &mut Summary,
    class: Class,
    bytes: &[u8],
    at: usize,
    contents: Range<usize>,
    inside: usize,
) -> Result<(), Fault> {
    let within = run(&bytes[..contents.end], contents.start, inside + 1)?;
    match class {
        Class::Edt if !within.begins_edt() => return Err(Fault::new(BAD_EDT, at)),
        Class::Ustruc if !within.is_uniform() => return Err(Fault::new(SEVERAL_KINDS, at)),
        Class::Edt => sum.add_container(elements::EDT, &within),
        _ if within.are_chars() => sum.add_string(within.elements),
        _ => sum.add_container(elements::OTHER_STRUC, &within),
    }
    Ok(())
}
