//! Files that are written: whole or not at all, with the permissions they had, and nothing left beside them.

mod bench;

use bench::{Bench, DOWN};
use std::fs;
use std::os::unix::fs::{symlink, PermissionsExt};

#[test]
fn permissions_are_kept() {
    let bench = Bench::new("permissions", &[("down", DOWN)]);
    fs::set_permissions(bench.path("box.img"), fs::Permissions::from_mode(0o640)).unwrap();
    bench.arduinos(&["disc", "rm", "box.img", "down"]).done();
    assert_eq!(fs::metadata(bench.path("box.img")).unwrap().permissions().mode() & 0o777, 0o640);
    assert_eq!(bench.names(), ["box.img"]);
}

#[test]
fn nothing_is_left_beside_a_file_that_cannot_be_replaced() {
    let bench = Bench::new("beside", &[("down", DOWN)]);
    fs::create_dir(bench.path("folder")).unwrap();
    let ran = bench.arduinos(&["disc", "get", "box.img", "down", "-o", "folder"]);
    assert_eq!(ran.status, 1);
    assert_eq!(bench.names(), ["box.img", "folder"]);
    assert_eq!(fs::read_dir(bench.path("folder")).unwrap().count(), 0);
    let ran = bench.arduinos(&["disc", "get", "box.img", "down", "-o", "no/where"]);
    assert_eq!((ran.status, bench.names()), (1, vec!["box.img".to_string(), "folder".to_string()]));
}

#[test]
fn a_link_is_written_through() {
    let bench = Bench::new("link", &[("down", DOWN)]);
    symlink("box.img", bench.path("link")).unwrap();
    bench.arduinos(&["disc", "rm", "link", "down"]).done();
    assert!(fs::symlink_metadata(bench.path("link")).unwrap().is_symlink());
    bench
        .arduinos(&["disc", "get", "box.img", "down"])
        .refused("disc get: box.img: \"down\" is not read (refusal 10): no such file");
}

#[test]
fn the_image_is_not_written_over_by_a_file_of_it() {
    let bench = Bench::new("over", &[("down", DOWN)]);
    let before = bench.read("box.img");
    let ran = bench.arduinos(&["disc", "get", "box.img", "down", "-o", "./box.img"]);
    assert_eq!((ran.status, ran.first_error()), (2, "arduinos disc get: -o ./box.img would write over the image"));
    assert_eq!(bench.read("box.img"), before);
}
