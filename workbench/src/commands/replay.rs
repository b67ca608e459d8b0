//! `arduinos replay`: the calls of a record made again.

use super::arguments::{Given, Options};
use crate::failure::{Failure, Outcome};
use crate::files;
use crate::record;
use crate::replay::replay;

pub const HELP: &str = "\
usage: arduinos replay FILE [--trace]

Makes the calls of a record again, on buffers filled as the record begins, and compares every number, every output and
the checksums of disc and work area after every call. Processes that ended by a fault are told with place and cause.

  --trace               show each turn, as 'arduinos run --trace' does; the first column counts turns and rounds

The first difference ends the replay. A record that was altered, be it by one byte, is told too.
Exit status: 0 all as recorded, 1 something differs or the record is no record, 2 wrong use.
";

const OPTIONS: Options = Options { flags: &["--trace"], valued: &[] };

pub fn main(arguments: &[String]) -> Outcome {
    let given = Given::read(arguments, &OPTIONS)?;
    let [path] = given.exactly(["FILE"])?;
    let file = files::shown(path);
    let record = match record::read(&files::read(path)?) {
        Ok(record) => record,
        Err(error) => {
            files::tell(&format!("{file}:{}:{}: {}\n", error.line, error.column, error.message));
            return Err(Failure::Told);
        }
    };
    let calls = record.calls.len();
    let replayed = replay(record, given.has("--trace"));
    files::write("-", replayed.told.as_bytes())?;
    for difference in &replayed.differences {
        files::tell(&format!("{file}:{}:{}: {}\n", difference.line, difference.column, difference.message));
    }
    if !replayed.differences.is_empty() {
        return Err(Failure::Told);
    }
    files::write("-", format!("{file}: {calls} calls, all as recorded\n").as_bytes())
}
