//! The cases hold of the second implementation by itself; no static library is needed.

use harness::cases::{compare_case, parse};
use harness::comparison::Comparison;
use harness::kernels::Second;
use std::path::Path;

#[test]
fn second_implementation_gives_the_written_answers() {
    let folder = Path::new(env!("CARGO_MANIFEST_DIR")).join("../cases");
    let mut comparison = Comparison::new(&Second, 1);
    for entry in std::fs::read_dir(folder).expect("tests/cases is there").flatten() {
        if entry.path().extension().is_some_and(|extension| extension == "case") {
            let text = std::fs::read_to_string(entry.path()).expect("a case file is text");
            let cases = parse(&text).unwrap_or_else(|error| panic!("{}: {error}", entry.path().display()));
            for (index, case) in cases.iter().enumerate() {
                compare_case(&mut comparison, case, index as u64).unwrap_or_else(|difference| panic!("{difference}"));
            }
        }
    }
    assert!(comparison.coverage.count("cases held") > 100, "too few cases were found");
}
