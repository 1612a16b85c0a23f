//! The functions of the proved code and what each of them calls, from the source,
//! and which of them were proved as cycles.

use std::collections::{BTreeMap, BTreeSet};
use std::path::{Path, PathBuf};

use crate::sheet::top;

/// Each function, `crate::name`, with those that it calls.
pub type Calls = BTreeMap<String, BTreeSet<String>>;

/// Finds the end of a tree in words without marks.
pub const COUNTS: &str = "tree::end_of_tree";
/// Reads the size of a node's tree from its mark.
const READS: &str = "marks::size_in";
/// The same of the mark at a place.
const READS_AT: &str = "marks::size_at";
/// Asks by the second how large the tree is that was put in place, to go on behind
/// it: it looks for no end. It is of the engine, which nests as said of the calls.
const STEPS: &str = "calls::call";

/// A crate: its name, those that it may call, its files.
struct Crate {
    name: String,
    below: Vec<String>,
    files: Vec<String>,
}

/// The calls of all crates.
pub fn read_calls() -> Calls {
    calls_of(&crates())
}

/// The functions that find the end of a tree: the one that counts the trees owed,
/// and those that read a size from a mark.
pub fn end_finders(calls: &Calls) -> Vec<&String> {
    let finds = |name: &str, called: &BTreeSet<String>| {
        let reads_at = name != STEPS && called.contains(READS_AT);
        name == COUNTS || called.contains(READS) || reads_at
    };
    let finders = calls.iter().filter(|(name, called)| finds(name, called));
    finders.map(|(name, _)| name).collect()
}

/// What a function reaches by any chain of calls; itself only if a chain comes
/// back to it.
pub fn reached(calls: &Calls, from: &str) -> BTreeSet<String> {
    let mut all = BTreeSet::new();
    let mut open = vec![from.to_string()];
    while let Some(name) = open.pop() {
        for called in &calls[&name] {
            if all.insert(called.clone()) {
                open.push(called.clone());
            }
        }
    }
    all
}

/// The functions that reach themselves.
pub fn cyclic(calls: &Calls) -> BTreeSet<String> {
    let back = |name: &&String| reached(calls, name).contains(*name);
    calls.keys().filter(back).cloned().collect()
}

/// How many calls stand below one another at most, where a function is called;
/// `None` if a chain can come back to a function.
pub fn depth(calls: &Calls, from: &str) -> Option<usize> {
    let mut all = reached(calls, from);
    all.insert(from.to_string());
    let bounded = all.is_disjoint(&cyclic(calls));
    bounded.then(|| longest_chain(calls, from))
}

fn longest_chain(calls: &Calls, from: &str) -> usize {
    let below = calls[from]
        .iter()
        .map(|name| 1 + longest_chain(calls, name));
    below.max().unwrap_or(0)
}

/// The functions that the checker has proved as members of a cycle: those that the
/// code marks with the name of a cycle, and those that call themselves alone. The
/// proof is in a folder of that name, or of their own, with a `+` before it.
pub fn proved_as_cycles() -> BTreeSet<String> {
    let mut proved = BTreeSet::new();
    for Crate { name, files, .. } in crates() {
        let marked: Vec<(&str, &str)> = files.iter().flat_map(|text| marked(text)).collect();
        let proofs = folders_below(&top().join("crates").join(&name).join("proofs"));
        let folders = proofs.iter().filter_map(|folder| folder.strip_prefix('+'));
        let folders: BTreeSet<&str> = folders.collect();
        let own = folders.iter().copied();
        let own = own.filter(|folder| marked.iter().all(|(cycle, _)| cycle != folder));
        let members = marked.iter().filter(|(cycle, _)| folders.contains(cycle));
        let members = members.map(|(_, member)| *member);
        proved.extend(members.chain(own).map(|it| format!("{name}::{it}")));
    }
    proved
}

/// The functions that a source marks as members of a cycle, each behind its
/// cycle's name.
fn marked(text: &str) -> Vec<(&str, &str)> {
    let pieces = text.split("#[cycle(").skip(1);
    let found = pieces.filter_map(|piece| {
        let (cycle, below) = piece.split_once(")]")?;
        let (_, function) = below.split_once("fn ")?;
        Some((cycle, function.split(['(', '<']).next()?))
    });
    found.collect()
}

/// The names of all folders in a folder, at any depth: a module has one of its own.
fn folders_below(folder: &Path) -> Vec<String> {
    let mut names = Vec::new();
    for path in in_folder(folder).iter().filter(|path| path.is_dir()) {
        let name = path.file_name().and_then(|name| name.to_str());
        names.push(name.expect("a name in UTF-8").to_string());
        names.extend(folders_below(path));
    }
    names
}

fn read(path: &Path) -> String {
    std::fs::read_to_string(path).unwrap_or_else(|error| panic!("{path:?}: {error}"))
}

fn in_folder(folder: &Path) -> Vec<PathBuf> {
    let entries = std::fs::read_dir(folder).into_iter().flatten();
    entries
        .map(|entry| entry.expect("an entry").path())
        .collect()
}

/// The crates that are proved, as crates.txt lists them: `name kind: those below it`.
fn crates() -> Vec<Crate> {
    let list = read(&top().join("crates.txt"));
    let lines = list.lines().filter_map(|line| line.split_once(':'));
    // Behind its name a crate may say of what kind it is.
    let lines = lines.filter_map(|(name, below)| Some((name.split(' ').next()?, below)));
    let read_crate = |(name, below): (&str, &str)| Crate {
        name: name.to_string(),
        below: below.split_whitespace().map(str::to_string).collect(),
        files: in_folder(&top().join("crates").join(name).join("src"))
            .iter()
            .map(|path| read(path))
            .collect(),
    };
    lines.map(read_crate).collect()
}

/// The calls of these crates. A call is a name with `(` right behind it. Behind the
/// name of a crate it is one of that crate; else it may be any function of that
/// name in its own crate or in one below. No import may give a function another
/// name. Behind the name of a type it is that type's method, and behind a `.` any
/// method of that name, unless the value is `self` or a field of it, whose type
/// says which. So no call is missed, and one that is taken for more than it is
/// leads down, where no chain comes back.
fn calls_of(crates: &[Crate]) -> Calls {
    let mut named = Vec::new();
    for each in crates {
        let fields: BTreeMap<_, _> = each.files.iter().flat_map(|text| fields(text)).collect();
        let files = each.files.iter();
        let found = files.flat_map(|text| functions(text, &fields));
        named.extend(found.map(|function| (each, function)));
    }
    let mut calls = Calls::new();
    for (of, function) in &named {
        let meant = function.called.iter().flat_map(|path| {
            let may = named.iter().filter(|(it, to)| is_meant(of, path, it, to));
            may.map(|(it, to)| full_name(&named, it, to))
        });
        let entry = calls.entry(full_name(&named, of, function));
        entry.or_default().extend(meant);
    }
    calls
}

/// `crate::name`; a method of which its crate has another of that name says its
/// type too.
fn full_name(named: &[(&Crate, Function)], of: &Crate, function: &Function) -> String {
    let (name, owner) = (&function.name, &function.owner);
    let mut others = named
        .iter()
        .filter(|(it, other)| it.name == of.name && other.name == *name && other.owner != *owner);
    match owner {
        Some(owner) if others.next().is_some() => format!("{}::{owner}::{name}", of.name),
        _ => format!("{}::{name}", of.name),
    }
}

/// May a path in a crate mean this function of another, or of its own?
fn is_meant(of: &Crate, path: &str, its: &Crate, function: &Function) -> bool {
    let seen = its.name == of.name || of.below.contains(&its.name);
    if let Some(name) = path.strip_prefix('.') {
        return seen && function.owner.is_some() && function.name == name;
    }
    let parts: Vec<&str> = path.split("::").collect();
    let [before @ .., name] = &parts[..] else {
        return false;
    };
    let named = of
        .below
        .iter()
        .find(|below| before.first() == Some(&below.as_str()));
    let owner = before
        .last()
        .filter(|part| part.starts_with(char::is_uppercase));
    seen && named.is_none_or(|named| *named == its.name)
        && function.name == *name
        && function.owner.as_deref() == owner.copied()
}

/// A function of a file with the paths that stand before a `(` in it, and the type
/// whose method it is.
struct Function {
    name: String,
    owner: Option<String>,
    called: Vec<String>,
}

/// Each field of a file's structs, behind the struct's name, with its type's name.
type Fields = BTreeMap<(String, String), String>;

fn fields(text: &str) -> Fields {
    let mut found = Fields::new();
    let mut owner = None;
    for line in text.lines() {
        if let Some((_, rest)) = line.split_once("struct ") {
            owner = rest.split([' ', '<', '(']).next().map(str::to_string);
        } else if line.starts_with('}') {
            owner = None;
        } else if let (Some(owner), Some((field, its))) = (&owner, line.split_once(": ")) {
            let field = field.trim().trim_start_matches("pub ");
            let its = its.trim_start_matches('&').trim_start_matches("'a ");
            let named = its.trim_start_matches("mut ").split(['<', ',', ' ']).next();
            let named = named.and_then(|path| path.rsplit("::").next());
            let key = (owner.clone(), field.to_string());
            found.insert(key, named.unwrap_or("").to_string());
        }
    }
    found
}

fn functions(text: &str, fields: &Fields) -> Vec<Function> {
    let mut functions: Vec<Function> = Vec::new();
    let mut owner = None;
    for line in text.lines() {
        let mut code = line.split("//").next().unwrap_or(line);
        let renames = code.starts_with("use ") && code.contains(" as ");
        assert!(!renames, "{line}: calls by another name would be missed");
        if code.starts_with("impl") {
            owner = owner_of(code);
        } else if code.starts_with('}') {
            owner = None;
        }
        if let Some((_, rest)) = code.split_once("fn ") {
            let (name, after) = rest.split_once('(').expect("arguments");
            functions.push(Function {
                name: name.split('<').next().unwrap_or(name).trim().to_string(),
                owner: owner.clone(),
                called: Vec::new(),
            });
            code = after;
        }
        if let Some(function) = functions.last_mut() {
            let found = paths_before_brackets(code);
            let meant = found.filter_map(|(path, value)| called_by(&owner, fields, path, value));
            function.called.extend(meant);
        }
    }
    functions
}

/// The type whose methods an `impl` has.
fn owner_of(code: &str) -> Option<String> {
    let named = match code.split_once(" for ") {
        Some((_, named)) => named,
        None => code.trim_start_matches("impl").trim_start_matches("<'a>"),
    };
    let name = named.trim().split(['<', ' ']).next()?;
    Some(name.to_string())
}

/// What a path calls on a value: `None` for a method of a type that is none of
/// ours.
fn called_by(
    owner: &Option<String>,
    fields: &Fields,
    path: &str,
    value: Option<&str>,
) -> Option<String> {
    let (Some(value), Some(owner)) = (value, owner) else {
        let own = |owner: &String| path.replace("Self::", &format!("{owner}::"));
        let plain = owner.as_ref().map_or(path.to_string(), own);
        return Some(value.map_or(plain, |_| format!(".{path}")));
    };
    let taken = value.rsplit(|c: char| !(c.is_alphanumeric() || "_.".contains(c)));
    let taken = taken.take(1).next().unwrap_or("");
    if taken == "self" {
        return Some(format!("{owner}::{path}"));
    }
    if value.ends_with(']') && value.rsplit('[').next()?.contains("..") {
        return None;
    }
    let field = taken.strip_prefix("self.").unwrap_or("");
    match fields.get(&(owner.clone(), field.to_string())) {
        Some(its) if its.starts_with(char::is_uppercase) => Some(format!("{its}::{path}")),
        Some(_) => None,
        None => Some(format!(".{path}")),
    }
}

/// The paths before a `(`, each with what stands before the `.` if it is a method.
fn paths_before_brackets(code: &str) -> impl Iterator<Item = (&str, Option<&str>)> {
    let ends = code.match_indices('(').map(|(at, _)| &code[..at]);
    let in_path = |c: char| c.is_alphanumeric() || c == '_' || c == ':';
    let split = ends.map(move |before| {
        let value = before.trim_end_matches(in_path);
        (&before[value.len()..], value.strip_suffix('.'))
    });
    split.filter(|(path, _)| !path.is_empty())
}

#[cfg(test)]
mod tests {
    use super::*;

    const LOW: &str = "
// f(x) calls itself only here: f(x)
pub fn f(x: u32) -> u32 { g(x) }
fn g(x: u32) -> u32
{
    x
}
";
    const HIGH: &str = "
pub fn f(x: u32) -> u32
{
    let y = low::f(x) + (x + 1);
    part::h(y)
}
pub fn h(
    x: u32,
) -> u32
{
    while f(x) < 7 {}
    k(x)
}
fn k(x: u32) -> u32 {
    x
}
";

    fn calls() -> Calls {
        let low = Crate {
            name: "low".to_string(),
            below: vec![],
            files: vec![LOW.to_string()],
        };
        let high = Crate {
            name: "high".to_string(),
            below: vec!["low".to_string()],
            files: vec![HIGH.to_string()],
        };
        calls_of(&[low, high])
    }

    fn set(names: &str) -> BTreeSet<String> {
        names.split_whitespace().map(str::to_string).collect()
    }

    #[test]
    fn calls_are_read_from_a_source() {
        let calls = calls();
        assert_eq!(calls["low::f"], set("low::g"));
        assert_eq!(calls["low::g"], set(""));
        assert_eq!(calls["high::f"], set("low::f high::h"));
        assert_eq!(calls["high::h"], set("high::f low::f high::k"));
        assert_eq!(calls["high::k"], set(""));
    }

    #[test]
    #[should_panic(expected = "calls by another name would be missed")]
    fn an_import_by_another_name_is_seen() {
        functions("use low::f as g;", &Fields::new());
    }

    #[test]
    fn a_function_that_a_chain_comes_back_to_reaches_itself() {
        let calls = calls();
        assert_eq!(reached(&calls, "low::f"), set("low::g"));
        assert_eq!(cyclic(&calls), set("high::f high::h"));
        assert_eq!(depth(&calls, "low::f"), Some(1));
        assert_eq!(depth(&calls, "high::k"), Some(0));
        assert_eq!(depth(&calls, "high::h"), None);
    }

    const METHODS: &str = "
struct Inner {
    words: [u32; 4],
}
struct Outer<'a> {
    pub inner: &'a Inner,
}
impl Inner {
    fn count(&self) -> usize { self.words[..2].get(self.first()) }
    fn get(&self) -> usize { self.words.get(0) }
    fn first(&self) -> usize { count(self) }
}
impl<'a> Outer<'a> {
    fn count(&self, other: &Outer) -> usize { self.inner.count() }
    fn again(&self, other: &Outer) -> usize { other.again() + Self::made() + Inner::first() }
    fn made() -> usize { 0 }
}
fn count(x: &Inner) -> usize { x.get(0) }
";

    #[test]
    fn calls_of_methods_are_read_from_a_source() {
        let calls = calls_of(&[Crate {
            name: "low".to_string(),
            below: vec![],
            files: vec![METHODS.to_string()],
        }]);
        assert_eq!(calls["low::Inner::count"], set("low::first"));
        assert_eq!(calls["low::get"], set(""));
        assert_eq!(calls["low::first"], set("low::count"));
        assert_eq!(calls["low::Outer::count"], set("low::Inner::count"));
        assert_eq!(calls["low::again"], set("low::again low::made low::first"));
        assert_eq!(calls["low::count"], set("low::get"));
        assert_eq!(cyclic(&calls), set("low::again"));
    }
}
