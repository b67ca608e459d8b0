//! Which faults each instruction can end with, and what each fault means: tables of docs/GUIDE.md.

use std::collections::BTreeSet;

fn text() -> String {
    let path = concat!(env!("CARGO_MANIFEST_DIR"), "/../docs/GUIDE.md");
    std::fs::read_to_string(path).expect("docs/GUIDE.md")
}

/// Faults 1 to 13 and what they mean, by the guide's table of them.
pub fn meanings() -> Vec<(u8, String)> {
    let guide = text();
    let (_, table) = guide.split_once("| fault | meaning |").expect("the table of faults");
    let rows = table.lines().skip(1).take_while(|line| line.starts_with('|'));
    let cells = rows.map(|row| row.split('|').map(str::trim).collect::<Vec<&str>>());
    let faults = cells.filter_map(|cells| Some((cells[1].parse().ok()?, cells[2].to_string())));
    faults.filter(|&(fault, _)| fault > 0).collect()
}

/// Pairs of instruction byte and fault.
pub fn faults() -> BTreeSet<(u8, u8)> {
    let guide = text();
    let mut pairs = BTreeSet::new();
    let mut rows = 0;
    for line in guide.lines() {
        // | no | name | arguments | pops | pushes | faults | remark |
        let cells: Vec<&str> = line.split('|').map(str::trim).collect();
        let [_, number, _, _, _, _, faults, _, _] = cells[..] else { continue };
        let Ok(number) = number.parse::<u8>() else { continue };
        rows += 1;
        for fault in faults.split(',').map(str::trim).filter(|fault| !fault.is_empty()) {
            pairs.insert((number, fault.parse().expect("a fault's number")));
        }
    }
    assert_eq!(rows, 69, "the guide's table has a row for each instruction");
    pairs
}
