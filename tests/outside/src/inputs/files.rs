//! Texts that stand in files of this repository: the gadgets, and the texts of the program `try_report`.

use std::path::{Path, PathBuf};

const GADGETS: &str = "gadgets";
/// The texts of the program `try_report`, and the list of them.
const TEXTS: &str = "crates/try_report/data";

pub fn read(path: &Path) -> Vec<u8> {
    std::fs::read(path).unwrap_or_else(|why| panic!("{} can be read: {why}", path.display()))
}

/// Every gadget, by its name.
pub fn gadgets() -> Vec<PathBuf> {
    let folder = std::fs::read_dir(GADGETS).unwrap_or_else(|why| panic!("{GADGETS} can be read: {why}"));
    let files = folder.map(|file| file.expect("a folder can be read to its end").path());
    let mut gadgets: Vec<PathBuf> = files
        .filter(|path| path.extension().is_some_and(|end| end == "txt"))
        .collect();
    gadgets.sort();
    gadgets
}

/// Every text of the list, a name on each line.
pub fn listed() -> Vec<PathBuf> {
    let list = String::from_utf8(read(&Path::new(TEXTS).join("index"))).expect("the list is of plain letters");
    list.lines().map(|name| Path::new(TEXTS).join(name)).collect()
}
