// SPDX-License-Identifier: Apache-2.0 OR MIT
//! The interfaces of an .aidl file: their methods in order, with the types of what these take. All else is gone over.
use super::words::{words, Fault, Word};

/// No file has interfaces further within one another than this.
const DEEPEST: usize = 16;

/// What a method takes.
#[derive(Clone, Debug, PartialEq, Eq)]
pub struct Argument {
    /// As the file has it, without annotations and what stands in angles.
    pub kind: String,
    pub is_array: bool,
    pub is_out: bool,
}

#[derive(Clone, Debug, PartialEq, Eq)]
pub struct Method {
    pub name: String,
    pub code: u32,
    pub arguments: Vec<Argument>,
}

#[derive(Clone, Debug, PartialEq, Eq)]
pub struct Interface {
    /// With its package.
    pub name: String,
    pub methods: Vec<Method>,
}

/// An enumeration, and the type that its values are of.
#[derive(Clone, Debug, PartialEq, Eq)]
pub struct Enumeration {
    pub name: String,
    pub of: String,
}

#[derive(Clone, Debug, Default, PartialEq, Eq)]
pub struct File {
    pub interfaces: Vec<Interface>,
    pub enumerations: Vec<Enumeration>,
}

struct Reader<'a> {
    words: Vec<Word<'a>>,
    at: usize,
    file: File,
}

type Read<T> = Result<T, Fault>;

impl<'a> Reader<'a> {
    fn peek(&self) -> &'a str {
        self.words.get(self.at).map_or("", |it| it.text)
    }

    fn fault<T>(&self, what: &str) -> Read<T> {
        let last = self.words.get(self.at).or_else(|| self.words.last());
        Err(Fault { line: last.map_or(1, |it| it.line), what: what.into() })
    }

    fn next(&mut self) -> Read<&'a str> {
        match self.words.get(self.at) {
            Some(word) => {
                self.at += 1;
                Ok(word.text)
            }
            None => self.fault("it breaks off"),
        }
    }

    fn eats(&mut self, word: &str) -> bool {
        let is_it = self.peek() == word;
        self.at += usize::from(is_it);
        is_it
    }

    fn eat(&mut self, word: &str) -> Read<()> {
        match self.eats(word) {
            true => Ok(()),
            false => self.fault(&format!("{word} is wanted, and {:?} stands there", self.peek())),
        }
    }

    fn name(&mut self) -> Read<&'a str> {
        let word = self.next()?;
        if word.starts_with(|it: char| it.is_ascii_alphabetic() || it == '_') {
            return Ok(word);
        }
        self.at -= 1;
        self.fault("a name is wanted")
    }

    /// Goes over what stands between two signs, the first of which stands here.
    fn skip(&mut self, open: &str, close: &str) -> Read<()> {
        self.eat(open)?;
        let mut depth = 1usize;
        while depth > 0 {
            let word = self.next()?;
            depth = if word == open { depth + 1 } else { depth - usize::from(word == close) };
        }
        Ok(())
    }

    /// Goes over annotations, and gives what `@Backing(type="int")` says.
    fn annotations(&mut self) -> Read<Option<&'a str>> {
        let mut backing = None;
        while self.eats("@") {
            let name = self.name()?;
            if self.peek() != "(" {
                continue;
            }
            let from = self.at;
            self.skip("(", ")")?;
            let said = &self.words[from..self.at];
            let text = said.iter().map(|it| it.text).find(|it| it.starts_with('"'));
            backing = text.filter(|_| name == "Backing").map(|it| it.trim_matches('"')).or(backing);
        }
        Ok(backing)
    }

    /// A type, and whether it is an array.
    fn kind(&mut self) -> Read<(&'a str, bool)> {
        self.annotations()?;
        let name = self.name()?;
        if self.peek() == "<" {
            self.skip("<", ">")?;
        }
        let mut is_array = false;
        loop {
            self.annotations()?;
            if self.peek() != "[" {
                return Ok((name, is_array));
            }
            self.skip("[", "]")?;
            is_array = true;
        }
    }

    fn argument(&mut self) -> Read<Argument> {
        self.annotations()?;
        let way = self.peek();
        let is_out = way == "out";
        self.at += usize::from(matches!(way, "in" | "out" | "inout"));
        let (kind, is_array) = self.kind()?;
        self.name()?;
        Ok(Argument { kind: kind.into(), is_array, is_out })
    }

    fn arguments(&mut self) -> Read<Vec<Argument>> {
        self.eat("(")?;
        let mut arguments = Vec::new();
        while !self.eats(")") {
            if !arguments.is_empty() {
                self.eat(",")?;
            }
            arguments.push(self.argument()?);
        }
        Ok(arguments)
    }

    /// A method, the first of which has number 0; its code is one more than its number, or than what it says itself.
    fn method(&mut self, number: u32) -> Read<Method> {
        self.eats("oneway");
        self.kind()?;
        let name = self.name()?.into();
        let arguments = self.arguments()?;
        let mut said = number;
        if self.eats("=") {
            said = match self.next()?.parse() {
                Ok(said) => said,
                Err(_) => return self.fault("a method's number is wanted"),
            };
        }
        self.eat(";")?;
        match said.checked_add(1) {
            Some(code) => Ok(Method { name, code, arguments }),
            None => self.fault("a method's number is too large"),
        }
    }

    /// Goes over anything up to a semicolon, or to the end of what stands in braces.
    fn skip_statement(&mut self) -> Read<()> {
        loop {
            match self.peek() {
                "{" => return self.skip("{", "}"),
                "(" => self.skip("(", ")")?,
                ";" => {
                    self.at += 1;
                    return Ok(());
                }
                _ => drop(self.next()?),
            }
        }
    }

    /// A declaration, within these names.
    fn declaration(&mut self, within: &str, depth: usize) -> Read<bool> {
        let from = self.at;
        let backing = self.annotations()?;
        self.eats("oneway");
        match self.peek() {
            "interface" => self.interface(within, depth)?,
            "enum" => {
                self.at += 1;
                let name = join(within, self.name()?);
                self.file.enumerations.push(Enumeration { name, of: backing.unwrap_or("byte").into() });
                self.skip("{", "}")?;
            }
            // A type of others has types within, perhaps, which no method's code depends on.
            "parcelable" | "union" => {
                self.at += 1;
                self.skip_statement()?;
            }
            _ => {
                self.at = from;
                return Ok(false);
            }
        }
        Ok(true)
    }

    fn interface(&mut self, within: &str, depth: usize) -> Read<()> {
        self.eat("interface")?;
        let name = join(within, self.name()?);
        if self.eats(";") {
            return Ok(());
        }
        if depth > DEEPEST {
            return self.fault("interfaces are too deep within one another");
        }
        self.eat("{")?;
        let mut methods = Vec::new();
        while !self.eats("}") {
            if self.declaration(&name, depth + 1)? {
                continue;
            }
            self.annotations()?;
            if self.peek() == "const" {
                self.skip_statement()?;
                continue;
            }
            let number = methods.len() as u32;
            methods.push(self.method(number)?);
        }
        self.file.interfaces.push(Interface { name, methods });
        Ok(())
    }

    fn file(mut self) -> Read<File> {
        let mut package = "";
        while self.at < self.words.len() {
            match self.peek() {
                "package" => {
                    self.at += 1;
                    package = self.name()?;
                    self.eat(";")?;
                }
                "import" => self.skip_statement()?,
                _ if self.declaration(package, 0)? => {}
                _ => return self.fault(&format!("{:?} begins no declaration", self.peek())),
            }
        }
        Ok(self.file)
    }
}

fn join(within: &str, name: &str) -> String {
    if within.is_empty() {
        name.into()
    } else {
        format!("{within}.{name}")
    }
}

/// The interfaces of a file's text.
pub fn read(text: &str) -> Result<File, Fault> {
    Reader { words: words(text)?, at: 0, file: File::default() }.file()
}

#[cfg(test)]
mod tests {
    use super::*;

    fn codes(text: &str) -> Vec<(String, u32)> {
        let interfaces = read(text).unwrap().interfaces;
        let of = |it: Interface| {
            let name = it.name;
            it.methods.into_iter().map(move |method| (format!("{name}.{}", method.name), method.code))
        };
        interfaces.into_iter().flat_map(of).collect()
    }

    #[test]
    fn methods_are_numbered_in_their_order() {
        let text = r#"package a.b;
            import a.b.Other;
            @VintfStability /* { */ interface IX {
                const int ONE = 1; // a comment; x();
                const String TEXT = "q ( { \" b";
                @utf8InCpp String first(in @nullable List<String> a, inout int[] b /* , int c */);
                parcelable Inner { int x; }
                oneway void second() ;
                @Backing(type="int") enum Kind { A = (1 + 2), B }
                void third(out byte[4] a);
            }"#;
        let wanted = [("a.b.IX.first", 1), ("a.b.IX.second", 2), ("a.b.IX.third", 3)];
        assert_eq!(codes(text), wanted.map(|(name, code)| (name.to_string(), code)));
        let file = read(text).unwrap();
        assert_eq!(file.enumerations, [Enumeration { name: "a.b.IX.Kind".into(), of: "int".into() }]);
        let argument = |kind: &str, is_array, is_out| Argument { kind: kind.into(), is_array, is_out };
        assert_eq!(
            file.interfaces[0].methods[0].arguments,
            [argument("List", false, false), argument("int", true, false)]
        );
        assert_eq!(file.interfaces[0].methods[2].arguments, [argument("byte", true, true)]);
    }

    #[test]
    fn a_method_may_say_its_number() {
        assert_eq!(codes("interface I { void a() = 7; void b() = 0; }"), [("I.a".into(), 8), ("I.b".into(), 1)]);
    }

    #[test]
    fn an_interface_may_stand_in_another() {
        let text = "package p; interface I { void a(); interface J { void b(); } void c(); }";
        assert_eq!(codes(text), [("p.I.J.b".into(), 1), ("p.I.a".into(), 1), ("p.I.c".into(), 2)]);
    }

    #[test]
    fn what_makes_no_sense_is_named() {
        let fault = |text| read(text).unwrap_err().what;
        assert_eq!(fault("interface I {"), "it breaks off");
        assert_eq!(fault("interface I { void a( }"), "a name is wanted");
        assert_eq!(fault("interface I { void a() = x; }"), "a method's number is wanted");
        assert_eq!(fault("interface I { void a() = 4294967295; }"), "a method's number is too large");
        assert_eq!(fault("what"), "\"what\" begins no declaration");
        assert_eq!(fault(&"interface I { ".repeat(100)), "interfaces are too deep within one another");
    }
}
