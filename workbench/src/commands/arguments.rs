//! Options and operands of a command line. An option is '--name', '--name VALUE', '--name=VALUE' or '-n VALUE'; '--'
//! ends them.

use crate::failure::{misused, Outcome};

/// Which options a command has.
pub struct Options {
    pub flags: &'static [&'static str],
    pub valued: &'static [&'static str],
}

/// What stood on the command line.
#[derive(Debug, Default)]
pub struct Given {
    pub operands: Vec<String>,
    flags: Vec<String>,
    values: Vec<(String, String)>,
}

impl Given {
    pub fn read(arguments: &[String], options: &Options) -> Outcome<Given> {
        let mut given = Given::default();
        let mut rest = arguments.iter();
        while let Some(argument) = rest.next() {
            if argument == "--" {
                given.operands.extend(rest.cloned());
                break;
            }
            if argument == "-" || !argument.starts_with('-') {
                given.operands.push(argument.clone());
                continue;
            }
            let (name, value) = match argument.split_once('=') {
                Some((name, value)) if name.starts_with("--") => (name, Some(value.to_string())),
                _ => (argument.as_str(), None),
            };
            given.option(name, value, &mut rest, options)?;
        }
        Ok(given)
    }

    fn option<'a>(
        &mut self,
        name: &str,
        value: Option<String>,
        rest: &mut impl Iterator<Item = &'a String>,
        options: &Options,
    ) -> Outcome {
        if options.flags.contains(&name) {
            if value.is_some() {
                return misused(format!("{name} takes no value"));
            }
            self.flags.push(name.to_string());
            return Ok(());
        }
        if !options.valued.contains(&name) {
            return misused(format!("there is no option {name}"));
        }
        match value.or_else(|| rest.next().cloned()) {
            Some(value) => self.values.push((name.to_string(), value)),
            None => return misused(format!("{name} wants a value")),
        }
        Ok(())
    }

    pub fn has(&self, flag: &str) -> bool {
        self.flags.iter().any(|given| given == flag)
    }

    /// The values of an option that may be given several times, in order.
    pub fn values<'a>(&'a self, name: &'a str) -> impl Iterator<Item = &'a str> {
        self.values.iter().filter(move |(given, _)| given == name).map(|(_, value)| value.as_str())
    }

    /// The value of an option that may be given once.
    pub fn value(&self, name: &str) -> Outcome<Option<&str>> {
        let mut values = self.values.iter().filter(|(given, _)| given == name).map(|(_, value)| value.as_str());
        let first = values.next();
        match values.next() {
            Some(_) => misused(format!("{name} is given twice")),
            None => Ok(first),
        }
    }

    /// A whole number from `least` to `most`.
    pub fn number(&self, name: &str, least: u64, most: u64) -> Outcome<Option<u64>> {
        let Some(text) = self.value(name)? else { return Ok(None) };
        match text.parse() {
            Ok(number) if (least..=most).contains(&number) => Ok(Some(number)),
            _ => misused(format!("{name} wants a number from {least} to {most}, not '{text}'")),
        }
    }

    /// The operands, exactly as many as are named.
    pub fn exactly<const N: usize>(&self, names: [&str; N]) -> Outcome<[&str; N]> {
        if self.operands.len() > N {
            return misused(format!("'{}' is one argument too many", self.operands[N]));
        }
        if self.operands.len() < N {
            return misused(format!("{} is missing", names[self.operands.len()]));
        }
        Ok(std::array::from_fn(|index| self.operands[index].as_str()))
    }
}
