//! The files of a folder and of all folders in it: each is measured and read, and compared with the reference. A line
//! for each difference, then `N passed, M failed`, counted in files.

use std::collections::HashSet;
use std::fs;
use std::io;
use std::path::{Path, PathBuf};
use std::process::ExitCode;

use library::{Counts, MOST};

use crate::dump;
use crate::lending::Lending;
use crate::measure;
use crate::read::Case;

pub fn compare(folder: &Path) -> ExitCode {
    let mut comparing = Comparing::default();
    comparing.folder(folder);
    comparing.finish()
}

#[derive(Default)]
struct Comparing {
    /// Folders that were entered: through links a folder can be met again, even inside itself.
    entered: HashSet<PathBuf>,
    passed: u64,
    failed: u64,
}

impl Comparing {
    fn folder(&mut self, folder: &Path) {
        match self.members(folder) {
            Ok(members) => members.iter().for_each(|member| self.member(member)),
            Err(error) => self.fail(folder, &[format!("cannot be listed: {error}")]),
        }
    }

    /// What is in a folder, by name; nothing if it was entered already.
    fn members(&mut self, folder: &Path) -> io::Result<Vec<PathBuf>> {
        if !self.entered.insert(folder.canonicalize()?) {
            return Ok(Vec::new());
        }
        let mut members = Vec::new();
        for member in fs::read_dir(folder)? {
            members.push(member?.path());
        }
        members.sort();
        Ok(members)
    }

    fn member(&mut self, path: &Path) {
        match fs::metadata(path) {
            Ok(found) if found.is_dir() => return self.folder(path),
            // A pipe would be waited for.
            Ok(found) if !found.is_file() => return self.fail(path, &["is no file".to_string()]),
            _ => {}
        }
        match fs::read(path) {
            Ok(text) => self.file(path, &text),
            Err(error) => self.fail(path, &[format!("cannot be read: {error}")]),
        }
    }

    fn file(&mut self, path: &Path, text: &[u8]) {
        let case = Case::of(text, Lending::MOST);
        if let Some(tables) = too_small(case.needed) {
            println!("{}: {tables}", path.display());
        }
        let measured = measure::agree(text, case.reading.measured()).err();
        let mut differences: Vec<String> = measured.iter().map(|found| format!("measure: {found}")).collect();
        differences.extend(case.differences(true).iter().map(|found| format!("read: {found}")));
        match differences[..] {
            [] => self.passed += 1,
            _ => self.fail(path, &differences),
        }
    }

    fn fail(&mut self, path: &Path, differences: &[String]) {
        self.failed += 1;
        for difference in differences {
            println!("{}: {difference}", path.display());
        }
    }

    /// No file at all is no success.
    fn finish(mut self) -> ExitCode {
        if self.passed + self.failed == 0 {
            println!("there is no file to compare");
            self.failed = 1;
        }
        println!("{} passed, {} failed", self.passed, self.failed);
        ExitCode::from(u8::from(self.failed > 0))
    }
}

/// Which tables are too small for a text, even whole.
fn too_small(needed: Counts) -> Option<String> {
    let shortages = dump::shortages(needed, MOST);
    let table = |number: &u64| match number {
        21 => format!("{} entries of {}", needed.entries, MOST.entries),
        22 => format!("{} items of {}", needed.items, MOST.items),
        23 => format!("{} expectations of {}", needed.expectations, MOST.expectations),
        _ => format!("{} bytes of the store of {}", needed.store, MOST.store),
    };
    let tables: Vec<String> = shortages.iter().map(table).collect();
    Some(format!("needs {}: read is compared for refusal {} only", tables.join(", "), shortages.first()?))
}
