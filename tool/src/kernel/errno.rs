// SPDX-License-Identifier: Apache-2.0 OR MIT
//! Why Linux's driver refused a call, as far as failed_transaction_log tells it: a return, an errno, a line of binder.c.
use super::binder_lines::VERSIONS;
use super::log::Entry;
use super::verbs::RETURNS;
use nix::errno::Errno;

/// The return that a refused call is answered with. The log has the low 16 bits of its code.
pub fn return_name(returned: u32) -> String {
    const OF_DRIVER: u32 = 0x72;
    let name = RETURNS.get((returned & 0xff) as usize).filter(|_| returned >> 8 & 0xff == OF_DRIVER);
    name.map_or_else(|| format!("return {returned:#x}"), |it| it.to_string())
}

/// As `EINVAL, Invalid argument`.
pub fn errno_words(errno: i64) -> String {
    let number = i32::try_from(errno.unsigned_abs()).unwrap_or(0);
    match Errno::from_i32(number) {
        Errno::UnknownErrno => format!("errno {errno}"),
        known => format!("{known:?}, {}", known.desc()),
    }
}

/// What the driver says at a line of binder.c in a version such as 6.1.192. Lines move with each release, so no other will do.
pub fn line_words(version: &str, line: u32) -> Option<&'static str> {
    let lines = VERSIONS.iter().find(|it| it.0 == version)?.1;
    lines.iter().find(|it| it.0 == line).map(|it| it.1)
}

/// Why a call was refused, in a line.
pub fn words(entry: &Entry, version: Option<&str>) -> String {
    let (returned, errno) = (return_name(entry.returned), errno_words(entry.errno));
    let line = entry.line;
    let why = match version.map(|it| (it, line_words(it, line))) {
        Some((version, Some(text))) => format!(", {text:?} in Linux {version}"),
        Some((version, None)) => format!("; of Linux {version} no such line is known"),
        None => String::new(),
    };
    format!("{returned}: {errno}; line {line} of binder.c{why}")
}

/// The versions whose lines are known.
pub fn known() -> String {
    let versions: Vec<_> = VERSIONS.iter().map(|it| it.0).collect();
    versions.join(", ")
}

#[cfg(test)]
mod tests {
    use super::*;

    /// What clients/kernel's machine printed of a call where there was no manager, on Debian's 6.1.192 and 6.12.
    #[test]
    fn a_refusal_is_told_by_its_line() {
        let entry = Entry { returned: 29189, errno: -22, line: 3063, ..Entry::default() };
        assert_eq!(words(&entry, None), "BR_DEAD_REPLY: EINVAL, Invalid argument; line 3063 of binder.c");
        let told = words(&entry, Some("6.1.192"));
        assert!(told.ends_with("line 3063 of binder.c, \"cannot find target node\" in Linux 6.1.192"), "{told}");
        let newer = Entry { line: 3160, ..entry.clone() };
        assert!(words(&newer, Some("6.12.117")).contains("\"cannot find target node\""), "{}", known());
        assert!(words(&entry, Some("4.14.1")).ends_with("; of Linux 4.14.1 no such line is known"));
        assert!(words(&entry, Some("x")).ends_with("no such line is known"));
    }

    #[test]
    fn numbers_that_nobody_knows_are_told_as_they_are() {
        assert_eq!(
            [return_name(29201), return_name(7), return_name(0x72ff)],
            ["BR_FAILED_REPLY", "return 0x7", "return 0x72ff"]
        );
        assert_eq!(
            [errno_words(-3), errno_words(-99999), errno_words(i64::MIN)],
            ["ESRCH, No such process", "errno -99999", "errno -9223372036854775808"]
        );
    }
}
