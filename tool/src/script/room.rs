// SPDX-License-Identifier: Apache-2.0 OR MIT
//! A place for what a run writes.
use anyhow::{Context, Result};
use std::fs::{self, DirBuilder};
use std::os::unix::fs::DirBuilderExt;
use std::path::PathBuf;

/// A folder of one's own, which goes in the end.
pub struct Room(PathBuf);

impl Room {
    pub fn new() -> Result<Room> {
        let path = std::env::temp_dir().join(format!("hullpippin-{}", std::process::id()));
        // Nobody else may have made it: it is made here, or it isn't used.
        DirBuilder::new().mode(0o700).create(&path).with_context(|| path.display().to_string())?;
        Ok(Room(path))
    }

    pub fn journal(&self) -> String {
        self.0.join("journal").display().to_string()
    }
}

impl Drop for Room {
    fn drop(&mut self) {
        // What can't be taken away is nobody's harm.
        let _ = fs::remove_dir_all(&self.0);
    }
}
