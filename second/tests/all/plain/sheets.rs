//! The measure sheet as items.

use super::items::codes;
use super::items::Item::{self, Edt, Empty, Int, Xtra};

/// What a sheet says: chest, waist and sleeve are its figures.
#[derive(Clone, Copy, Debug, PartialEq, Eq)]
pub struct Sheet {
    pub order: i64,
    pub unit: u8,
    pub figures: [i64; 3],
}

impl Sheet {
    /// The figures in micrometres.
    pub fn micrometres(&self) -> [i64; 3] {
        let each = if self.unit == 0 { 1_000 } else { 3_175 };
        self.figures.map(|figure| figure * each)
    }

    /// The items of the sheet as it is written.
    pub fn items(&self) -> Vec<Item> {
        let head = [Int(12), Int(1), Int(self.order), Xtra(self.unit)];
        vec![Edt([&head[..], &self.figures.map(Int)].concat())]
    }
}

/// The sheet that these items are, or the number that refuses them.
pub fn sheet(items: &[Item]) -> Result<Sheet, u64> {
    let [Edt(elements)] = items else {
        return Err(20);
    };
    let [kind, Int(1), Int(order), Xtra(unit @ 0..=1), chest, waist, sleeve] = &elements[..] else {
        return Err(20);
    };
    if *kind != Int(12) && codes(kind).as_deref() != Some(b"MEASURE") {
        return Err(20);
    }
    let figures = [chest, waist, sleeve];
    if figures.iter().any(|item| !matches!(item, Int(_) | Empty)) {
        return Err(20);
    }
    let [Int(chest), Int(waist), Int(sleeve)] = figures else {
        return Err(21);
    };
    let figures = [*chest, *waist, *sleeve];
    if figures.iter().any(|figure| !(1..=20_000).contains(figure)) {
        return Err(22);
    }
    Ok(Sheet {
        order: *order,
        unit: *unit,
        figures,
    })
}
