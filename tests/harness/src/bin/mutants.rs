//! Plants wrong readings in copies of the second implementation, one at a time, and lets the harness tell each apart.
//!
//! mutants TESTS TARGET [--agreeing] [--pick N --seed S] [--only NUMBER]
//! TESTS is the folder tests/, TARGET the folder that cargo built into. Prints a table; fails if one is not told apart.
//! With --agreeing both kernels are given the same fault, and only the single process can tell.

use harness::random::Random;
use std::fs;
use std::path::{Path, PathBuf};
use std::process::{Command, ExitCode, Stdio};
use std::time::{Duration, Instant};

/// A run that takes longer than this has not told the mutant apart.
const PATIENCE: Duration = Duration::from_secs(100);

/// One replacement in one file.
struct Edit {
    file: String,
    old: String,
    new: String,
}

/// A wrong reading and the edits that plant it.
struct Mutant {
    number: usize,
    title: String,
    edits: Vec<Edit>,
}

/// Where things lie.
struct Places {
    tests: PathBuf,
    release: PathBuf,
    work: PathBuf,
    /// Whether the harness is built with the mutant too.
    agreeing: bool,
}

impl Places {
    /// The package that has `Call`.
    fn kernel(&self) -> PathBuf {
        self.release.join("libkernel.rlib")
    }
}

fn main() -> ExitCode {
    match mutants() {
        Ok(true) => ExitCode::SUCCESS,
        Ok(false) => ExitCode::FAILURE,
        Err(message) => {
            eprintln!("mutants: {message}");
            ExitCode::from(2)
        }
    }
}

fn mutants() -> Result<bool, String> {
    let arguments: Vec<String> = std::env::args().skip(1).collect();
    let [tests, target, options @ ..] = &arguments[..] else {
        return Err("the folders tests and target are needed".to_string());
    };
    let target = PathBuf::from(target);
    let agreeing = options.iter().any(|option| option == "--agreeing");
    let (release, work) = (target.join("release"), target.join("mutants"));
    let places = Places { tests: tests.into(), release, work, agreeing };
    let list = if agreeing { "mutants/agreeing.txt" } else { "mutants/list.txt" };
    let all = parse(&read(&places.tests.join(list))?)?;
    for mutant in &all {
        check_edits(&places, mutant)?;
    }
    let chosen = choose(&all, options)?;
    println!("| number | wrong reading | told apart by part | after calls |\n|---|---|---|---|");
    if chosen.len() == all.len() {
        try_unchanged(&places)?;
    }
    let mut told_apart = 0;
    for mutant in &chosen {
        let verdict = try_mutant(&places, mutant)?;
        told_apart += usize::from(verdict.is_some());
        let row = verdict.unwrap_or("NOT TOLD APART | ".to_string());
        println!("| {} | {} | {row} |", mutant.number, mutant.title);
    }
    println!("\n{told_apart} of {} mutants told apart ({} in the list)", chosen.len(), all.len());
    Ok(told_apart == chosen.len())
}

/// A copy without an edit must not be told apart.
fn try_unchanged(places: &Places) -> Result<(), String> {
    let unchanged = Mutant { number: 0, title: "nothing changed".to_string(), edits: Vec::new() };
    match try_mutant(places, &unchanged)? {
        None => println!("| 0 | nothing changed | none | all |"),
        Some(place) => return Err(format!("the unchanged copy differs: {place}")),
    }
    Ok(())
}

/// The blocks of the list: `## title`, then `file:`, `old:` and `new:` lines.
fn parse(list: &str) -> Result<Vec<Mutant>, String> {
    let mut mutants: Vec<Mutant> = Vec::new();
    let mut file = String::new();
    for (index, line) in list.lines().enumerate() {
        let error = || format!("line {} of the list: {line}", index + 1);
        if let Some(title) = line.strip_prefix("## ") {
            mutants.push(Mutant { number: mutants.len() + 1, title: title.to_string(), edits: Vec::new() });
        } else if let Some(name) = line.strip_prefix("file: ") {
            file = name.to_string();
        } else if let Some(text) = after(line, "old:") {
            let edits = &mut mutants.last_mut().ok_or_else(error)?.edits;
            match edits.last_mut().filter(|edit| edit.new.is_empty() && edit.file == file) {
                Some(edit) => edit.old += &format!("\n{text}"),
                None => edits.push(Edit { file: file.clone(), old: text.to_string(), new: String::new() }),
            }
        } else if let Some(text) = after(line, "new:") {
            let edits = &mut mutants.last_mut().ok_or_else(error)?.edits;
            edits.last_mut().ok_or_else(error)?.new += &format!("{text}\n");
        } else if !line.is_empty() && !line.starts_with("# ") {
            return Err(error());
        }
    }
    Ok(mutants)
}

/// The text after a key and one space.
fn after<'a>(line: &'a str, key: &str) -> Option<&'a str> {
    let text = line.strip_prefix(key)?;
    Some(text.strip_prefix(' ').unwrap_or(text))
}

/// An old text that is not found exactly once is an error of the list.
fn check_edits(places: &Places, mutant: &Mutant) -> Result<(), String> {
    for edit in &mutant.edits {
        let text = read(&places.tests.join("second/src").join(&edit.file))?;
        let found = text.matches(&edit.old).count();
        if found != 1 {
            return Err(format!(
                "{}: in {} the old text is found {found} times: {}",
                mutant.title, edit.file, edit.old
            ));
        }
    }
    Ok(())
}

/// All mutants, one by its number, or some by a seed.
fn choose<'a>(all: &'a [Mutant], options: &[String]) -> Result<Vec<&'a Mutant>, String> {
    let number = |name: &str, usual: usize| -> Result<usize, String> {
        match options.iter().position(|option| option == name) {
            None => Ok(usual),
            Some(at) => {
                let value = options.get(at + 1).and_then(|value| value.parse().ok());
                value.ok_or(format!("{name} needs a number"))
            }
        }
    };
    let only = number("--only", 0)?;
    let mut chosen: Vec<&Mutant> = all.iter().filter(|mutant| only == 0 || mutant.number == only).collect();
    let pick = number("--pick", chosen.len())?;
    if pick < chosen.len() {
        Random::new(number("--seed", 1)? as u64).shuffle(&mut chosen);
        chosen.truncate(pick);
    }
    Ok(chosen)
}

/// Builds the mutant with the C functions as one object, links the harness with it and runs it to its first difference.
fn try_mutant(places: &Places, mutant: &Mutant) -> Result<Option<String>, String> {
    plant(places, mutant)?;
    let work = |name: &str| places.work.join(name).display().to_string();
    let libraries = if places.agreeing { build_harness(places)? } else { places.release.clone() };
    rustc(&[
        "--crate-name=mutant",
        "--crate-type=lib",
        "--emit=obj",
        "-Copt-level=1",
        "-Ccodegen-units=1",
        &work("src/with_functions.rs"),
        &format!("-o{}", work("mutant.o")),
    ])?;
    rustc(&[
        "--crate-name=compare",
        &format!("-Ldependency={}", places.release.join("deps").display()),
        &format!("-Ldependency={}", libraries.display()),
        &format!("--extern=harness={}", libraries.join("libharness.rlib").display()),
        &format!("--extern=kernel={}", places.kernel().display()),
        &format!("-Clink-arg={}", work("mutant.o")),
        &places.tests.join("linked/src/bin/compare.rs").display().to_string(),
        &format!("-o{}", work("compare")),
    ])?;
    run(&places.work)
}

/// Builds the harness with the mutant in place of the second implementation.
fn build_harness(places: &Places) -> Result<PathBuf, String> {
    let work = |name: &str| places.work.join(name).display().to_string();
    let library = |name: &str, source: &str, needs: &[&str]| {
        let output = format!("-o{}", work(&format!("lib{name}.rlib")));
        let words = [&format!("--crate-name={name}"), "--crate-type=lib", "-Copt-level=1", source, &output];
        rustc(&[&words, needs].concat())
    };
    library("second", &work("src/lib.rs"), &["-Cmetadata=agreeing"])?;
    let harness = places.tests.join("harness/src/lib.rs").display().to_string();
    let second = format!("--extern=second={}", work("libsecond.rlib"));
    let kernel = format!("--extern=kernel={}", places.kernel().display());
    library("harness", &harness, &[&second, &kernel])?;
    Ok(places.work.clone())
}

/// Copies the sources, makes the edits and adds the C functions to the same crate.
fn plant(places: &Places, mutant: &Mutant) -> Result<(), String> {
    let source = places.tests.join("second/src");
    let copy = places.work.join("src");
    fs::create_dir_all(&copy).map_err(|error| error.to_string())?;
    let functions = read(&places.tests.join("standin/src/lib.rs"))?;
    fs::write(copy.join("functions.rs"), functions).map_err(|error| error.to_string())?;
    for entry in fs::read_dir(&source).map_err(|error| error.to_string())?.flatten() {
        let name = entry.file_name();
        let mut text = read(&entry.path())?;
        for edit in mutant.edits.iter().filter(|edit| name == *edit.file) {
            text = text.replace(&edit.old, edit.new.trim_end_matches('\n'));
        }
        if name == "lib.rs" {
            let root = text.replace("#![forbid(unsafe_code)]", "") + "extern crate self as second;\nmod functions;\n";
            fs::write(copy.join("with_functions.rs"), root).map_err(|error| error.to_string())?;
        }
        fs::write(copy.join(name), text).map_err(|error| error.to_string())?;
    }
    Ok(())
}

fn read(path: &Path) -> Result<String, String> {
    fs::read_to_string(path).map_err(|error| format!("{}: {error}", path.display()))
}

fn rustc(arguments: &[&str]) -> Result<(), String> {
    let compiler = std::env::var("RUSTC").unwrap_or("rustc".to_string());
    let status = Command::new(compiler).args(["--edition=2021", "--cap-lints=allow"]).args(arguments).status();
    match status {
        Ok(status) if status.success() => Ok(()),
        _ => Err(format!("rustc failed: {}", arguments.join(" "))),
    }
}

/// Runs the linked harness without the cases; tells the part and the call at which it found a difference.
fn run(work: &Path) -> Result<Option<String>, String> {
    let output = work.join("output.txt");
    let file = fs::File::create(&output).map_err(|error| error.to_string())?;
    let mut child = Command::new(work.join("compare"))
        .stdout(file)
        .stderr(Stdio::null())
        .spawn()
        .map_err(|error| error.to_string())?;
    let begin = Instant::now();
    let status = loop {
        match child.try_wait().map_err(|error| error.to_string())? {
            Some(status) => break status,
            None if begin.elapsed() > PATIENCE => {
                let _ = child.kill();
                let _ = child.wait();
                return Ok(None);
            }
            None => std::thread::sleep(Duration::from_millis(5)),
        }
    };
    if status.code().is_none() {
        return Ok(Some("stopped by a signal | ".to_string()));
    }
    let text = read(&output)?;
    Ok(text.lines().find_map(|line| line.strip_prefix("found at part ")).map(place))
}

/// "stacks, seed 1, unit 0, call 7" as two columns.
fn place(line: &str) -> String {
    let (part, rest) = line.split_once(',').unwrap_or((line, ""));
    let calls = rest.rsplit(' ').next().unwrap_or("");
    format!("{part} | {calls}")
}
