//! The vectors, from all their files.

use crate::notation::{blocks, Block};
use std::path::Path;

/// A block of a vector file, and where it stands.
pub struct Vector {
    pub name: String,
    pub block: Block,
}

impl Vector {
    /// A number of words or bytes lent, ample if the vector does not say.
    pub fn lent(&self, key: &str, ample: usize) -> usize {
        let value = self.block.value(key);
        value.map_or(ample, |value| value.parse().expect("a number"))
    }
}

/// The vectors that have a key, which are exactly so many.
pub fn with_key(key: &str, due: usize) -> Vec<Vector> {
    let folder = Path::new(env!("CARGO_MANIFEST_DIR")).join("../vectors");
    let files = std::fs::read_dir(folder).expect("the folder of vectors");
    let paths = files.map(|file| file.expect("a file").path());
    let texts = paths.filter(|path| path.extension().is_some_and(|kind| kind == "txt"));
    let all = texts.flat_map(|path| of_file(&path));
    let chosen: Vec<_> = all
        .filter(|vector| vector.block.value(key).is_some())
        .collect();
    assert_eq!(chosen.len(), due, "vectors with {key}");
    chosen
}

fn of_file(path: &Path) -> Vec<Vector> {
    let text = std::fs::read_to_string(path).expect("a vector file");
    let name = path.file_name().expect("a name").to_string_lossy();
    let vector = |block: Block| Vector {
        name: format!("{name}:{}", block.line),
        block,
    };
    blocks(&text).into_iter().map(vector).collect()
}
