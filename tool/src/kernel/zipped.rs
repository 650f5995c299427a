// SPDX-License-Identifier: Apache-2.0 OR MIT
//! A bug report within a zip file, as phones send it.
use super::lines::Lines;
use super::report::{parts, Part};
use anyhow::{bail, Context, Result};
use std::fs::File;
use std::io::{BufRead, BufReader, Read, Seek};
use zip::ZipArchive;

/// No more is read of a report.
const MOST_TEXT: u64 = 1 << 30;
/// The file that says which one is the report itself.
const MAIN: &str = "main_entry.txt";

/// The report within a zip file.
pub fn unzipped(path: &str) -> Result<Vec<(Part, Vec<u8>)>> {
    if path == "-" {
        bail!("a zip file is read from its end, so it has to be a file");
    }
    unzip(BufReader::new(File::open(path)?))
}

/// The report within what is zipped.
pub fn unzip(input: impl Read + Seek) -> Result<Vec<(Part, Vec<u8>)>> {
    let mut archive = ZipArchive::new(input).context("it can't be unzipped")?;
    let name = main_name(&mut archive)?;
    let entry = archive.by_name(&name).with_context(|| format!("{name} can't be unzipped"))?;
    let mut limited = entry.take(MOST_TEXT);
    let found = {
        let input: Box<dyn BufRead + '_> = Box::new(BufReader::with_capacity(1 << 16, &mut limited));
        parts(&mut Lines::new(input)).with_context(|| name.clone())
    };
    if limited.limit() == 0 {
        bail!("{name} has more than {MOST_TEXT} bytes, so it isn't read");
    }
    found
}

/// Which file is the report: the one that is said to be, else the first text that is called so.
fn main_name<R: Read + Seek>(archive: &mut ZipArchive<R>) -> Result<String> {
    const MOST_NAME: u64 = 4096;
    let mut said = String::new();
    if let Ok(entry) = archive.by_name(MAIN) {
        entry.take(MOST_NAME).read_to_string(&mut said).with_context(|| MAIN.to_string())?;
    }
    let said = said.trim().to_string();
    let names: Vec<&str> = archive.file_names().collect();
    let mut texts: Vec<&str> = names.iter().copied().filter(|it| !it.contains('/') && it.ends_with(".txt")).collect();
    texts.sort_unstable();
    let is_report = |it: &&&str| it.starts_with("bugreport") || it.starts_with("dumpstate");
    let found = names.iter().find(|it| **it == said && !said.is_empty()).or_else(|| texts.iter().find(is_report));
    found
        .map(|it| it.to_string())
        .context("there is no bug report in it: no main_entry.txt that names one, no bugreport-*.txt")
}
