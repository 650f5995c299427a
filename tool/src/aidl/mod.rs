// SPDX-License-Identifier: Apache-2.0 OR MIT
//! What methods are called, from .aidl files of the very build: codes shift between releases, so no table of them can last.
mod parcels;
pub mod reader;
mod words;

use crate::live::calls::short_code;
use crate::parcel::token;
use anyhow::{bail, Context, Result};
use parcels::Kind;
use reader::{Argument, Method};
use std::cell::Cell;
use std::collections::{HashMap, HashSet};
use std::fs;
use std::path::{Path, PathBuf};

/// No more files are read, none that is larger, and none further down.
const MOST_FILES: usize = 100_000;
const MOST_SIZE: u64 = 1 << 22;
const DEEPEST: usize = 64;
/// What each stable interface answers besides, by codes that no file says.
const FIXED: [(u32, &str); 2] = [(0x00ff_ffff, "getInterfaceVersion"), (0x00ff_fffe, "getInterfaceHash")];

/// All methods by their interfaces and codes.
#[derive(Debug, Default)]
pub struct Methods {
    methods: HashMap<String, HashMap<u32, Method>>,
    /// The last words of the names of all interfaces, and of enumerations with what their values are.
    interfaces: HashSet<String>,
    enumerations: HashMap<String, String>,
}

thread_local! {
    static METHODS: Cell<Option<&'static Methods>> = const { Cell::new(None) };
}

fn last(name: &str) -> &str {
    name.rsplit('.').next().unwrap_or(name)
}

/// All .aidl files of a folder, in the order of their names. Links aren't followed, since they may lead around.
fn files(folder: &Path, depth: usize, found: &mut Vec<PathBuf>) -> Result<()> {
    let mut entries: Vec<_> = fs::read_dir(folder)?.collect::<Result<_, _>>()?;
    entries.sort_by_key(|it| it.file_name());
    for entry in entries {
        let (path, kind) = (entry.path(), entry.file_type()?);
        if kind.is_dir() && depth < DEEPEST {
            files(&path, depth + 1, found)?;
        } else if kind.is_file() && path.extension().map_or(false, |it| it == "aidl") {
            found.push(path);
        }
        if found.len() > MOST_FILES {
            bail!("there are more than {MOST_FILES} files");
        }
    }
    Ok(())
}

impl Methods {
    fn add(&mut self, path: &Path) -> Result<()> {
        if fs::metadata(path)?.len() > MOST_SIZE {
            bail!("it has more than {MOST_SIZE} bytes");
        }
        let text = fs::read_to_string(path)?;
        let file = reader::read(&text).map_err(|it| anyhow::anyhow!("line {}: {}", it.line, it.what))?;
        for it in file.interfaces {
            self.interfaces.insert(last(&it.name).into());
            let methods = it.methods.into_iter().map(|method| (method.code, method)).collect();
            self.methods.insert(it.name, methods);
        }
        self.enumerations.extend(file.enumerations.into_iter().map(|it| (last(&it.name).to_string(), it.of)));
        Ok(())
    }

    /// Reads a folder. A file that makes no sense is named, and left out.
    fn read(folder: &Path) -> Result<Methods> {
        let (mut methods, mut paths) = (Methods::default(), Vec::new());
        files(folder, 0, &mut paths).with_context(|| folder.display().to_string())?;
        for path in &paths {
            if let Err(error) = methods.add(path) {
                eprintln!("hullpippin: {}: {error:#}; so it isn't used", path.display());
            }
        }
        if methods.methods.is_empty() {
            bail!("{}: it has no interface in an .aidl file", folder.display());
        }
        Ok(methods)
    }

    fn kind(&self, it: &Argument) -> Kind {
        let kind = last(&it.kind);
        match self.enumerations.get(kind).map_or(kind, |it| it.as_str()) {
            _ if it.is_array => Kind::Other,
            "boolean" => Kind::Boolean,
            "byte" | "char" | "int" => Kind::Int,
            "long" => Kind::Long,
            "float" => Kind::Float,
            "double" => Kind::Double,
            "String" => Kind::Text,
            "IBinder" => Kind::Object,
            name if self.interfaces.contains(name) => Kind::Object,
            _ => Kind::Other,
        }
    }

    fn name(&self, interface: &str, code: u32) -> Option<&str> {
        let methods = self.methods.get(interface)?;
        let fixed = || FIXED.iter().find(|it| it.0 == code).map(|it| it.1);
        methods.get(&code).map(|it| &it.name[..]).or_else(fixed)
    }
}

/// Has methods be called by their names from now on.
pub fn want(folder: &Path) -> Result<()> {
    let methods: &'static Methods = Box::leak(Box::new(Methods::read(folder)?));
    METHODS.with(|it| it.set(Some(methods)));
    Ok(())
}

fn all() -> Option<&'static Methods> {
    METHODS.with(Cell::get)
}

/// What a method is called.
pub fn name(interface: Option<&str>, code: u32) -> Option<&'static str> {
    all()?.name(interface?, code)
}

/// What a call was made with, from its parcel, as `("hello", 8)`; None where nobody knows its method.
pub fn arguments(code: u32, data: &[u8]) -> Option<String> {
    let (all, token) = (all()?, token(data)?);
    let method = all.methods.get(&token.text)?.get(&code)?;
    Some(parcels::words(&method.arguments, |it| all.kind(it), data, token.end.min(data.len())))
}

/// A call's method, as `.listServices`, or its code, as `#4`, behind what is called.
pub fn method_words(interface: Option<&str>, code: u32, arguments: Option<&str>) -> String {
    match name(interface, code) {
        Some(name) => format!(".{name}{}", arguments.unwrap_or("")),
        None => short_code(code),
    }
}

#[cfg(test)]
mod tests {
    use super::*;

    #[test]
    fn types_are_those_of_the_files() {
        let mut methods = Methods::default();
        methods.interfaces.insert("ICallback".into());
        methods.enumerations.insert("Kind".into(), "long".into());
        let of = |kind: &str, is_array| methods.kind(&Argument { kind: kind.into(), is_array, is_out: false });
        let kinds = ["int", "byte", "long", "a.b.Kind", "String", "IBinder", "a.ICallback", "Bundle", "Map"]
            .map(|it| of(it, false));
        use Kind::*;
        assert_eq!(kinds, [Int, Int, Long, Long, Text, Object, Object, Other, Other]);
        assert_eq!(of("int", true), Other);
    }

    /// The names and codes of an interface, as Debian's `aidl` makes Java of it.
    fn theirs(folder: &Path, path: &Path, name: &str) -> Vec<(u32, String)> {
        let done = std::process::Command::new("aidl")
            .args(["--lang=java", &format!("-I{}", folder.display()), "-o", &format!("{}/out", folder.display())])
            .arg(path)
            .output()
            .expect("aidl");
        assert!(done.status.success(), "{}", String::from_utf8_lossy(&done.stderr));
        let java = fs::read_to_string(folder.join(format!("out/com/example/{name}.java"))).expect("its output");
        let of = |line: &str| {
            let (method, rest) =
                line.split_once("TRANSACTION_")?.1.split_once(" = (android.os.IBinder.FIRST_CALL_TRANSACTION + ")?;
            Some((1 + rest.split(')').next()?.parse::<u32>().ok()?, method.to_string()))
        };
        let mut found: Vec<_> =
            java.lines().filter(|it| it.contains("static final int TRANSACTION_")).filter_map(of).collect();
        found.sort();
        found
    }

    /// A method with any arguments, and sometimes what a reader may stumble over.
    fn generated(number: usize, said: Option<usize>, random: &mut dyn FnMut(usize) -> usize) -> String {
        const KINDS: [&str; 8] = [
            "int a",
            "in String a",
            "IBinder a",
            "in byte[] a",
            "in List<String> a",
            "in @nullable String a",
            "boolean /* c, (d) */ a",
            "out int[] a",
        ];
        const BACK: [&str; 8] =
            ["void", "int", "String", "int[]", "@nullable String", "List<String>", "IBinder", "@utf8InCpp String"];
        const BEFORE: [&str; 4] = ["", "/** doc; { */ ", "// x(); \n    ", "@nullable /* m(); */ "];
        let arguments: Vec<String> = (0..random(5)).map(|at| format!("{}{at}", KINDS[random(KINDS.len())])).collect();
        let is_one_way = random(3) == 0 && arguments.iter().all(|it| !it.contains("out "));
        let before = BEFORE[random(3)];
        let (one_way, back) = if is_one_way { ("oneway ", "void") } else { ("", BACK[random(BACK.len())]) };
        let said = said.map_or(String::new(), |it| format!(" = {it}"));
        let constant = match random(7) {
            0 => format!("    const int C{number} = {number};\n"),
            1 => format!("    const String S{number} = \"a ( {{ b\";\n"),
            _ => String::new(),
        };
        format!("{constant}    {before}{one_way}{back} m{number}({}){said};\n", arguments.join(", "))
    }

    /// 60 interfaces of 1,000 methods and more, and one by hand with each trap.
    #[test]
    #[ignore = "needs aidl"]
    fn names_are_those_of_debians_aidl() {
        let folder = std::env::temp_dir().join(format!("hullpippin-aidl-{}", std::process::id()));
        fs::create_dir_all(folder.join("com/example")).expect("a folder");
        let mut state = 0x9e37_79b9_7f4a_7c15u64;
        let mut random = move |most: usize| {
            state ^= state << 13;
            state ^= state >> 7;
            state ^= state << 17;
            (state % most as u64) as usize
        };
        let mut texts = vec![TRAPS.to_string()];
        for at in 1..=60 {
            let is_numbered = random(3) == 0;
            let count = 10 + random(16);
            let methods: String =
                (0..count).map(|it| generated(it, is_numbered.then_some(7 * it + 3), &mut random)).collect();
            texts.push(format!("package com.example;\n@UnsupportedAppUsage\ninterface IGen{at} {{\n{methods}}}\n"));
        }
        let mut count = 0;
        for (at, text) in texts.iter().enumerate() {
            let name = format!("IGen{at}");
            let path = folder.join(format!("com/example/{name}.aidl"));
            fs::write(&path, text).expect("a file");
            let mut ours: Vec<_> = reader::read(text)
                .expect(text)
                .interfaces
                .into_iter()
                .filter(|it| it.name == format!("com.example.{name}"))
                .flat_map(|it| it.methods)
                .map(|it| (it.code, it.name))
                .collect();
            ours.sort();
            assert_eq!(ours, theirs(&folder, &path, &name), "{text}");
            count += ours.len();
        }
        fs::remove_dir_all(&folder).expect("the folder goes");
        assert!(count > 1000, "{count}");
    }

    /// What this version of `aidl` takes; types within interfaces, which newer ones take, are in the reader's own test.
    const TRAPS: &str = r#"package com.example;
/* interface INot { void a(); } */
interface IGen0 {
    // void not();
    const String TEXT = "void no(); } // x";
    const int SUM = 3 /* ; void c(); */;
    void first(in List<String> it);
    oneway void second(in @nullable String kind, /* ) */ in IBinder[] all);
    @nullable List<String>
        third(inout byte[] data);
    String fourth();
}
"#;
}
