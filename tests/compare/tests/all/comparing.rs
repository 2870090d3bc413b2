//! Two tables compared (Ask 1): one pair of tables in every room. Both programs
//! agree, and rules of a few lines, by the words of the tables alone, hold of both.

use crate::checker::Checker;
use crate::rooms::list_rooms;
use crate::tables::Row;
use crate::told;
use second::Comparing;

/// A row in the first table, and one in the second.
pub type Entry = [u64; 2];

/// There are never more differences.
const MOST_ENTRIES: u64 = 16_384;

/// What became of pairs of tables.
#[derive(Debug, Default)]
pub struct Met {
    pub refused: u64,
    pub same: u64,
    pub different: u64,
    /// Of the different ones, those with other outermost counts.
    pub counts: u64,
    /// Others, with an entry whose two rows are not the same number.
    pub apart: u64,
    /// Others, with an entry inside a container that was gone into.
    pub inside: u64,
}

impl Met {
    pub fn all(&self) -> u64 {
        self.refused + self.same + self.different
    }

    /// Everything there is was met so often, at the least.
    pub fn must_be_whole(&self, least: u64) {
        println!("{self:?}");
        let outcomes = [self.refused, self.same, self.different];
        let differences = [self.counts, self.apart, self.inside];
        let mut met = outcomes.into_iter().chain(differences);
        assert!(met.all(|times| times >= least), "{self:?}");
    }

    fn count(&mut self, left: &[u64], right: &[u64], entries: Option<&[Entry]>) {
        match entries {
            None => self.refused += 1,
            Some([]) => self.same += 1,
            Some(_) if left[1] != right[1] => {
                self.different += 1;
                self.counts += 1;
            }
            Some([.., last]) => {
                self.different += 1;
                self.apart += (last[0] != last[1]) as u64;
                self.inside += Sheet::of(left).is_inside(last[0]) as u64;
            }
        }
    }
}

/// A table by its header, which is right.
struct Sheet<'t> {
    outermost: u64,
    rows: &'t [Row],
    data: &'t [u64],
}

/// What a row says by itself, wherever its data words lie and whatever is beneath
/// it: its kind, its count, and its value or its data words.
type Said<'t> = (u64, u64, &'t [u64]);

impl<'t> Sheet<'t> {
    fn of(table: &'t [u64]) -> Sheet<'t> {
        let used = words_used(table);
        let (rows, data) = used[4..].split_at(3 * table[0] as usize);
        Sheet {
            outermost: table[1],
            rows: rows.as_chunks().0,
            data,
        }
    }

    fn said(&self, at: usize) -> Said<'t> {
        let [kind, a, b] = self.rows[at];
        let data = |words: u64| &self.data[b as usize..][..words as usize];
        let words = match kind {
            2 => data(a.div_ceil(64)),
            7 | 8 => &[],
            9 => data(a.div_ceil(8)),
            _ => &self.rows[at][2..],
        };
        (kind, a, words)
    }

    /// Where an item's rows end.
    fn end(&self, at: usize) -> usize {
        match self.rows[at] {
            [7 | 8, _, beneath] => at + 1 + beneath as usize,
            _ => at + 1,
        }
    }

    fn is_inside(&self, row: u64) -> bool {
        let row = row as usize;
        (0..row).any(|at| self.end(at) > row)
    }

    /// A whole item: what each of its rows says, in order.
    fn item(&self, at: usize) -> Vec<Said<'t>> {
        (at..self.end(at)).map(|row| self.said(row)).collect()
    }

    /// What all rows say but those of the items at some rows, of which each leaves
    /// a gap. Nothing if these do not rise, or one is in another, or is not there.
    fn without(&self, named: impl Iterator<Item = u64>) -> Option<Vec<Option<Said<'t>>>> {
        let mut outline = Vec::new();
        let mut at = 0;
        for row in named.map(|row| row as usize) {
            if row < at || row >= self.rows.len() {
                return None;
            }
            outline.extend((at..row).map(|row| Some(self.said(row))));
            outline.push(None);
            at = self.end(row);
        }
        outline.extend((at..self.rows.len()).map(|row| Some(self.said(row))));
        Some(outline)
    }
}

/// The words of a table without those past its data.
pub fn words_used(table: &[u64]) -> &[u64] {
    &table[..(table[2] + table[3]) as usize]
}

/// Whether the entries are those that two well-formed tables are due.
pub fn are_due(left: &[u64], right: &[u64], entries: &[Entry]) -> bool {
    let same = words_used(left) == words_used(right);
    let (left, right) = (Sheet::of(left), Sheet::of(right));
    if left.outermost != right.outermost {
        return entries == [[left.rows.len() as u64, right.rows.len() as u64]];
    }
    let rests = [
        left.without(entries.iter().map(|entry| entry[0])),
        right.without(entries.iter().map(|entry| entry[1])),
    ];
    let [Some(rest), Some(other_rest)] = rests else {
        return false;
    };
    let differ = |entry: &Entry| {
        let [at, to] = entry.map(|row| row as usize);
        let (kind, count, _) = left.said(at);
        let (other, others, _) = right.said(to);
        let gone_into = matches!(kind, 7 | 8) && kind == other && count == others;
        !gone_into && left.item(at) != right.item(to)
    };
    rest == other_rest && entries.iter().all(differ) && same == entries.is_empty()
}

/// The entries of a list.
fn entries_of(list: &[u64]) -> Vec<Entry> {
    list.as_chunks().0.to_vec()
}

pub fn turned_round(entries: &[Entry]) -> Vec<Entry> {
    entries.iter().map(|&[left, right]| [right, left]).collect()
}

/// What is due in a room, where an empty list got this: 0 in place of 16 where
/// the entries fit, and all else alike.
fn due(asked: Comparing, room: usize) -> Comparing {
    let fits = asked.number == 16 && 2 * asked.entries <= room as u64;
    Comparing {
        number: if fits { 0 } else { asked.number },
        ..asked
    }
}

/// Compares in a room, which gets what is due by what an empty list got. A refusal
/// touches no word of it, and 0 none past the entries. Answers those listed.
fn in_room(
    checker: &mut Checker,
    tables: [&[u64]; 2],
    asked: Comparing,
    room: usize,
) -> Vec<Entry> {
    let answer = checker.comparing(tables[0], tables[1], room);
    let due = due(asked, room);
    let listed = if due.number == 0 { 2 * due.entries } else { 0 };
    let sound = answer == due && checker.table_is_kept_from(listed as usize);
    checker.must(sound, || {
        let told = format!("{room} words lent, asked {asked:?}, {answer:?}");
        format!("{told}: {}", pair_told(tables))
    });
    let listed = (listed as usize).min(room);
    entries_of(&checker.table()[..listed])
}

pub fn pair_told(tables: [&[u64]; 2]) -> String {
    let [left, right] = tables.map(told::words);
    format!("left {left}, right {right}")
}

/// A table is well formed where writing does not refuse it with 12.
fn is_well_formed(table: &[u64]) -> bool {
    second::write(table, &mut []).number != 12
}

/// What an empty list gets, if it is what is due: 12 exactly where one of both is
/// not well formed, and otherwise 16 with the entries needed, or 0 without any.
fn ask(checker: &mut Checker, left: &[u64], right: &[u64], sound: bool) -> Option<Comparing> {
    let asked = checker.comparing(left, right, 0);
    let number = match (sound, asked.entries) {
        (false, _) => 12,
        (true, 0) => 0,
        (true, _) => 16,
    };
    let needs = if number == 16 {
        1..=MOST_ENTRIES
    } else {
        0..=0
    };
    let as_due = asked.number == number && needs.contains(&asked.entries);
    checker.must(as_due, || {
        format!("asked, {asked:?}: {}", pair_told([left, right]))
    });
    as_due.then_some(asked)
}

/// Compares two tables in every room, and exchanged. Answers the entries, which are
/// those due by the rules, if both are well formed.
pub fn compared(
    checker: &mut Checker,
    left: &[u64],
    right: &[u64],
    met: &mut Met,
) -> Option<Vec<Entry>> {
    let sound = is_well_formed(left) && is_well_formed(right);
    let asked = ask(checker, left, right, sound)?;
    let mut entries = Vec::new();
    for room in list_rooms(asked.entries) {
        let listed = in_room(checker, [left, right], asked, room);
        if listed.len() > entries.len() {
            entries = listed;
        }
    }
    let turned = in_room(checker, [right, left], asked, 2 * asked.entries as usize);
    let as_due = !sound || are_due(left, right, &entries);
    checker.must(as_due && turned == turned_round(&entries), || {
        let pair = pair_told([left, right]);
        format!("entries {entries:?}, exchanged {turned:?}: {pair}")
    });
    let entries = sound.then_some(entries);
    met.count(left, right, entries.as_deref());
    entries
}

/// Compares two tables as above, and holds the entries to those that are known.
pub fn must_list(checker: &mut Checker, left: &[u64], right: &[u64], due: &[Entry]) {
    let entries = compared(checker, left, right, &mut Met::default());
    checker.must(entries.as_deref() == Some(due), || {
        let told = format!("{due:?} due, not {entries:?}");
        format!("{told}: {}", pair_told([left, right]))
    });
}

/// Compares two tables that get 12, in every room.
pub fn must_refuse(checker: &mut Checker, left: &[u64], right: &[u64]) {
    let entries = compared(checker, left, right, &mut Met::default());
    checker.must(entries.is_none(), || {
        format!("12 due, not {entries:?}: {}", pair_told([left, right]))
    });
}
