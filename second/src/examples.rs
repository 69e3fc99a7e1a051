//! Example sheets: those of the scope's table, the scanner of the first mistake, the published
//! domains that fit into 64 states, the slide tray, and the program's limits. Each comes with a text that says what its states and commands are.

pub mod bench;
pub mod bomb;
pub mod grid;
pub mod limits;
pub mod ring;
pub mod robot;
pub mod scanner;
pub mod tray;

use crate::sheet::Sheet;

/// A sheet's bytes with a name fit for a file and a text about its states and commands.
#[derive(Clone, Debug, PartialEq, Eq)]
pub struct Example {
    pub name: String,
    pub about: String,
    pub bytes: Vec<u8>,
}

impl Example {
    /// An example made from a sheet that the writer accepts.
    pub fn of(name: impl Into<String>, about: impl Into<String>, sheet: &Sheet) -> Example {
        let bytes = sheet
            .to_bytes()
            .expect("every example sheet can be written");
        Example::raw(name, about, bytes)
    }

    /// An example made from bytes that need not be a sheet.
    pub fn raw(name: impl Into<String>, about: impl Into<String>, bytes: Vec<u8>) -> Example {
        Example {
            name: name.into(),
            about: about.into(),
            bytes,
        }
    }
}

/// Every example, in the order in which they are written out.
pub fn all() -> Vec<Example> {
    let mut examples = bench::examples();
    examples.extend(scanner::examples());
    examples.extend(robot::examples());
    examples.extend(bomb::examples());
    examples.extend(grid::examples());
    examples.extend(ring::examples());
    examples.extend(tray::examples());
    examples.extend(limits::examples());
    examples
}

/// The set of all states under this count.
pub fn all_states(count: u64) -> u64 {
    (0..count).fold(0, |set, state| set | 1 << state)
}
