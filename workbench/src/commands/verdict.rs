//! Whether a disc and a work area are good: the kernel decides, the clauses say why not.

use crate::failure::{Failure, Outcome};
use crate::files;
use crate::good;
use crate::layout::{entries, records, variables, Record};
use crate::layout::{DATA_START, MAX_FILES, MAX_PROCESSES, MAX_VARIABLES};
use kernel::sizes::LIST_OUTPUT;
use std::fmt::Display;

/// What the kernel answers for a disc and for a work area that is not good.
const BAD_DISC: i32 = -2;
const BAD_AREA: i32 = -3;

/// What is said of a disc or a work area, each clause on a line.
pub struct Verdict {
    pub text: String,
    pub is_good: bool,
}

/// Of a disc of 1,024 or 4,096 bytes.
pub fn of_disc(disc: &[u8]) -> Verdict {
    let takes = kernel::free_space(disc) != BAD_DISC;
    verdict("disc", &good::disc(disc), takes, || disc_summary(disc))
}

/// Of a work area beside its disc. The kernel judges it on a good disc alone.
pub fn of_area(disc: &[u8], area: &[u8]) -> Verdict {
    if kernel::free_space(disc) == BAD_DISC {
        let Verdict { text, .. } = of_area_alone(area, "beside this disc it is not judged");
        return Verdict { text, is_good: false };
    }
    let takes = kernel::list(disc, area, &mut [0; LIST_OUTPUT]) != BAD_AREA;
    verdict("work area", &good::area(disc, area), takes, || area_summary(area))
}

/// Of a work area without its disc; `remark` says what that leaves open.
pub fn of_area_alone(area: &[u8], remark: &str) -> Verdict {
    match good::area_alone(area).as_slice() {
        [] => Verdict { text: format!("work area: nothing wrong by itself; {remark}\n"), is_good: true },
        clauses => Verdict { text: format!("work area: not good\n{}", lines(clauses)), is_good: false },
    }
}

/// Writes a readout, if there is one, and verdicts to standard output: exit status 1 if one of them is not good.
pub fn write(readout: &str, verdicts: &[Verdict]) -> Outcome {
    let said: String = verdicts.iter().map(|verdict| verdict.text.as_str()).collect();
    files::write("-", format!("{readout}{said}").as_bytes())?;
    if verdicts.iter().all(|verdict| verdict.is_good) {
        Ok(())
    } else {
        Err(Failure::Told)
    }
}

/// That clauses and kernel disagree is said.
fn verdict(what: &str, clauses: &[impl Display], takes: bool, summary: impl Fn() -> String) -> Verdict {
    let text = match (takes, clauses.is_empty()) {
        (true, true) => format!("{what}: good; {}\n", summary()),
        (false, false) => format!("{what}: not good\n{}", lines(clauses)),
        (false, true) => format!("{what}: not good: the kernel refuses it, but no broken clause is found\n"),
        (true, false) => format!("{what}: the kernel takes it, but these clauses seem broken\n{}", lines(clauses)),
    };
    Verdict { text, is_good: takes && clauses.is_empty() }
}

fn lines(clauses: &[impl Display]) -> String {
    clauses.iter().map(|clause| format!("  {clause}\n")).collect()
}

/// How many files a good disc has, how many bytes they take, and the longest free run.
pub fn disc_summary(disc: &[u8]) -> String {
    let entries = entries(disc);
    let taken: usize = entries.iter().map(|entry| entry.length).sum();
    let (files, bytes, run) = (entries.len(), disc.len() - DATA_START, kernel::free_space(disc));
    format!("files: {files} of {MAX_FILES}, bytes: {taken} of {bytes}, longest free run: {run}")
}

fn area_summary(area: &[u8]) -> String {
    let live = records(area).filter(Record::is_live).count();
    format!("live processes: {live} of {MAX_PROCESSES}, variables: {} of {MAX_VARIABLES}", variables(area).len())
}

#[cfg(test)]
mod tests {
    use super::*;

    #[test]
    fn where_clauses_and_kernel_disagree_it_is_said() {
        let said = |clauses: &[&str], takes| {
            let Verdict { text, is_good } = verdict("disc", clauses, takes, || "files: 0".into());
            (text, is_good)
        };
        assert_eq!(said(&[], true), ("disc: good; files: 0\n".into(), true));
        assert_eq!(said(&["a", "b"], false), ("disc: not good\n  a\n  b\n".into(), false));
        let found_none = "disc: not good: the kernel refuses it, but no broken clause is found\n";
        assert_eq!(said(&[], false), (found_none.into(), false));
        let found_one = "disc: the kernel takes it, but these clauses seem broken\n  a\n";
        assert_eq!(said(&["a"], true), (found_one.into(), false));
    }
}
