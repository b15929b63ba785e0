//! Scripts that include others.

use super::{run_text, stops};
use crate::folder::{Folder, Ran};

#[test]
fn an_included_script_stands_beside_the_one_that_includes_it() {
    let folder = Folder::new()
        .with("top.desk", "include parts/one.desk\nrun 1\nexpect A 1234H\nexpect B 7\n")
        .with("parts/one.desk", "set B 7\ninclude two.desk # beside this one\n")
        .with("parts/two.desk", "program 0: 624681H\n");
    folder.desk("run top.desk").is_done("run 1: 0 done, 1 word\n");
}

#[test]
fn a_fault_in_an_included_script_has_its_place_there() {
    let folder = Folder::new()
        .with("bad.desk", "include parts/bad.desk\n")
        .with("wrong.desk", "include parts/wrong.desk\n")
        .with("parts/bad.desk", "\nshows\n")
        .with("parts/wrong.desk", "reset\n expect A 1\n");
    folder.desk("run bad.desk").is_refused(2, "parts/bad.desk:2:1: \"shows\": expected a statement, perhaps \"show\"");
    let told = "desk: parts/wrong.desk:2:2: expected A 0001H, found 0000H\n";
    assert_eq!(folder.desk("run wrong.desk"), Ran::new(1, "reset: 0 done\n", told));
}

#[test]
fn a_missing_include_is_told_where_it_is_named() {
    let ran = run_text("run 1\ninclude none.desk\n");
    assert_eq!((ran.status, ran.printed.as_str()), (2, ""));
    assert!(ran.told.starts_with("desk: s.desk:2:9: none.desk: cannot read: "), "{ran:?}");
}

#[test]
fn too_many_scripts_are_not_included() {
    let folder = Folder::new().with("s.desk", "include one.desk\n".repeat(1001)).with("one.desk", "run 0\n");
    folder.desk("run --quiet s.desk").is_refused(2, "s.desk:1001:9: more than 1000 scripts are included");
}

#[test]
fn a_script_that_includes_itself_ends() {
    stops("run 1\ninclude s.desk\ninclude s.desk\n", 2, "", "s.desk:2:9: scripts include each other more than 16 deep");
}
