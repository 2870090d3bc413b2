//! The evidence of a fault: what stands there in the place of what is due.

use crate::answers::{
    evidence, BAD_BITS, BAD_EDT, BAD_REPEAT, CUT_INNER, CUT_OUTERMOST, RESERVED_TYPE, SEVERAL_KINDS,
};
use crate::classes::{class_of, Class};
use crate::heads::{self, Lead};
use crate::kinds::sets;
use crate::{steps, strings};

/// A sort of evidence and its two numbers.
#[derive(Clone, Copy, Debug, PartialEq, Eq)]
pub struct Evidence {
    /// One of `answers::evidence`.
    pub sort: u64,
    pub first: u64,
    pub second: u64,
}

impl Evidence {
    pub const NONE: Evidence = Evidence::new(evidence::NONE, 0, 0);

    pub const fn new(sort: u64, first: u64, second: u64) -> Evidence {
        Evidence {
            sort,
            first,
            second,
        }
    }

    /// The evidence for the number of a fault at `place`. The end of `within` is that
    /// of the enclosing object, or of the message if there is none.
    pub fn of(number: u64, within: &[u8], place: usize, is_outermost: bool) -> Evidence {
        match number {
            CUT_OUTERMOST | CUT_INNER => Evidence::new(evidence::END, within.len() as u64, 0),
            RESERVED_TYPE => byte(within, place),
            BAD_REPEAT if is_outermost => byte(within, place),
            BAD_BITS if class_of(within[place]) == Class::Sbitstr => byte(within, place + 1),
            BAD_BITS | BAD_REPEAT => lead(within, place),
            SEVERAL_KINDS => kinds(within, place),
            BAD_EDT => elements(within, place),
            _ => Evidence::NONE,
        }
    }
}

/// A byte and its place.
fn byte(bytes: &[u8], place: usize) -> Evidence {
    Evidence::new(evidence::BYTE, bytes[place] as u64, place as u64)
}

/// What stands in the place of the length or count of the object at `place`. A number
/// that stands there is at fault itself.
fn lead(within: &[u8], place: usize) -> Evidence {
    let contents = steps::contents(within, place);
    match heads::lead(&within[..contents.end], contents.start) {
        Lead::Integer { value, .. } => Evidence::new(evidence::NUMBER, value as u64, 0),
        Lead::Other { place } => byte(within, place),
        _ => Evidence::new(evidence::ABSENT, 0, 0),
    }
}

/// The first element of the USTRUC at `place`, and the earliest of another kind. The
/// walk goes on from a count that is not 0 into the pattern, and from its end to what
/// follows the REPEAT: one copy shows all kinds that there are in it.
fn kinds(within: &[u8], place: usize) -> Evidence {
    let contents = steps::contents(within, place);
    let within = &within[..contents.end];
    let (mut at, mut first) = (contents.start, None);
    while at < within.len() {
        let class = class_of(within[at]);
        if class == Class::Repeat {
            let repeat = steps::repeat(within, at);
            at = match repeat.count {
                0 => repeat.pattern.end,
                _ => repeat.pattern.start,
            };
            continue;
        }
        if class != Class::Padding {
            let &mut (kind, one) = first.get_or_insert((kind_of(class), at));
            if kind != kind_of(class) {
                return Evidence::new(evidence::KINDS, one as u64, at as u64);
            }
        }
        at = steps::span(within, at).end;
    }
    unreachable!("the scan has met several kinds")
}

/// The kind, one of `sets`, of the item that an object gives.
fn kind_of(class: Class) -> u32 {
    match class {
        Class::Sinteger | Class::Linteger => sets::INT,
        Class::Sbitstr | Class::Lbitstr => sets::BITS,
        Class::Char7 => sets::CHAR,
        Class::Bool => sets::BOOL,
        Class::Empty => sets::EMPTY,
        Class::Xtra => sets::XTRA,
        Class::Struc | Class::Ustruc | Class::String => sets::STRUC,
        Class::Edt => sets::EDT,
        Class::Repeat | Class::Padding | Class::Reserved => sets::NONE,
    }
}

/// Which of the first two elements of the EDT at `place` is wrong or absent. Where the
/// first is right, the second is not.
fn elements(within: &[u8], place: usize) -> Evidence {
    let contents = steps::contents(within, place);
    let within = &within[..contents.end];
    let leading = Leading::of(within, contents.start);
    match (leading.first, leading.second) {
        (Some(first), _) if !may_be_first(within, first) => element(1, Some(first)),
        (Some(_), second) => element(2, second),
        (None, _) => element(1, None),
    }
}

fn element(which: u64, place: Option<usize>) -> Evidence {
    match place {
        Some(place) => Evidence::new(evidence::ELEMENT, which, place as u64),
        None => Evidence::new(evidence::ELEMENT_ABSENT, which, 0),
    }
}

/// Whether an object gives an INT or a string.
fn may_be_first(within: &[u8], place: usize) -> bool {
    match class_of(within[place]) {
        Class::Sinteger | Class::Linteger | Class::String => true,
        Class::Struc | Class::Ustruc => {
            let contents = steps::contents(within, place);
            strings::are_chars(&within[..contents.end], contents.start)
        }
        _ => false,
    }
}

/// The places of the objects that give the first two elements of a run, repeats laid
/// out, as far as there are any.
#[derive(Clone, Copy, Default)]
struct Leading {
    first: Option<usize>,
    second: Option<usize>,
}

impl Leading {
    /// Those of the objects from `at` to the end of `bytes`.
    fn of(bytes: &[u8], mut at: usize) -> Leading {
        let mut leading = Leading::default();
        while at < bytes.len() && leading.second.is_none() {
            at = match class_of(bytes[at]) {
                Class::Repeat => leading.add_repeat(bytes, at),
                Class::Padding => steps::span(bytes, at).end,
                Class::Char7 | Class::Sinteger => leading.add(at, at + 1),
                _ => leading.add(at, steps::span(bytes, at).end),
            };
        }
        leading
    }

    /// Adds the element at `at`, and answers where its object ends.
    fn add(&mut self, at: usize, after: usize) -> usize {
        match self.first {
            None => self.first = Some(at),
            Some(_) => self.second = self.second.or(Some(at)),
        }
        after
    }

    /// Adds the elements of the REPEAT at `at`, and answers where it ends. An element
    /// that is alone in its pattern is followed by itself.
    fn add_repeat(&mut self, bytes: &[u8], at: usize) -> usize {
        let repeat = steps::repeat(bytes, at);
        let end = repeat.pattern.end;
        if repeat.count > 0 {
            let pattern = Leading::of(&bytes[..end], repeat.pattern.start);
            let again = pattern.first.filter(|_| repeat.count > 1);
            let elements = [pattern.first, pattern.second.or(again)];
            for place in elements.into_iter().flatten() {
                self.add(place, end);
            }
        }
        end
    }
}

#[cfg(test)]
mod tests {
    use super::*;

    /// The evidence for the number of a fault at place 0, outermost.
    fn of_outermost(number: u64, message: &[u8]) -> [u64; 3] {
        let evidence = Evidence::of(number, message, 0, true);
        [evidence.sort, evidence.first, evidence.second]
    }

    #[test]
    fn bits_and_counts_show_a_byte_a_number_or_nothing() {
        let cases: [(u64, &[u8], [u64; 3]); 9] = [
            (6, &[0xF2, 0, 1], [2, 0, 1]),
            (6, &[0xC1, 0x81, 0], [4, 0, 0]),
            (6, &[0xC1, 2, 0xFF, 0xFF], [4, 0, 0]),
            (6, &[0xC1, 2, 0xFF, 0xC0], [2, 0xC0, 3]),
            (6, &[0xC1, 2, 0xE1, 0xFF], [3, u64::MAX, 0]),
            (6, &[0xC1, 1, 0x88], [3, 8, 0]),
            (7, &[0xC4, 1, 0xFF], [2, 0xC4, 0]),
            (4, &[0xC7], [2, 0xC7, 0]),
            (5, &[0xC2], [0, 0, 0]),
        ];
        for (number, message, due) in cases {
            assert_eq!(of_outermost(number, message), due, "{message:02X?}");
        }
    }

    /// A pattern's object is named by its own place, one of count 0 never.
    #[test]
    fn kinds_differ_after_repeats() {
        let cases: [(&[u8], [u64; 2]); 6] = [
            (&[0xC5, 4, 0x81, 0x82, 0xFF, 0x41], [2, 5]),
            (&[0xC5, 5, 0xC4, 2, 0x82, 0x81, 0x41], [5, 6]),
            (&[0xC5, 5, 0x81, 0xC4, 2, 0x82, 0x41], [2, 6]),
            (&[0xC5, 6, 0xC4, 2, 0x80, 0xFE, 0x81, 0x41], [6, 7]),
            (&[0xC5, 7, 0xC6, 1, 0x41, 0xC2, 1, 0x81, 0xFE], [2, 8]),
            (&[0xC5, 7, 0xC2, 1, 0x81, 0xC3, 2, 0x81, 0x82], [2, 5]),
        ];
        for (message, [first, other]) in cases {
            assert_eq!(
                of_outermost(8, message),
                [5, first, other],
                "{message:02X?}"
            );
        }
    }

    #[test]
    fn an_edt_lacks_its_first_or_its_second() {
        let cases: [(&[u8], [u64; 3]); 9] = [
            (&[0xC3, 0x81, 0], [7, 1, 0]),
            (&[0xC3, 4, 0xC4, 2, 0x80, 0x81], [7, 1, 0]),
            (&[0xC3, 2, 0xFF, 0x81], [7, 2, 0]),
            (&[0xC3, 1, 0xFE], [6, 1, 2]),
            (&[0xC3, 2, 0x81, 0xFE], [6, 2, 3]),
            (&[0xC3, 7, 0xC4, 4, 0x82, 0xC6, 1, 0x41, 0x81], [6, 2, 5]),
            (&[0xC3, 7, 0xC4, 4, 0x81, 0xC6, 1, 0x41, 0xFE], [6, 2, 8]),
            (&[0xC3, 4, 0xC2, 1, 0x81, 0x81], [6, 1, 2]),
            (&[0xC3, 4, 0xC2, 1, 0x41, 0x41], [6, 2, 5]),
        ];
        for (message, due) in cases {
            assert_eq!(of_outermost(9, message), due, "{message:02X?}");
        }
    }
}
