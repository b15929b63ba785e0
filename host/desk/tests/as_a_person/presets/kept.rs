//! Nothing is written where a script fails or a file is bad, and no file that is read is replaced.

use super::{half_is_refused, preset, whole_and_half};
use crate::folder::Folder;
use std::os::unix::fs::symlink;

#[track_caller]
fn keeps_the_old_file(script: &str, status: i32, told: &str) {
    let folder = whole_and_half().with("s.desk", script);
    let before = folder.names();
    folder.desk("preset write s.desk --out new.hex").is_refused(status, told);
    folder.desk("preset write s.desk --out -").is_refused(status, told);
    assert_eq!(folder.names(), before, "nothing is made");
    folder.write("new.hex", "the old preset");
    folder.desk("preset write s.desk --out new.hex").is_refused(status, told);
    assert_eq!(folder.text("new.hex"), "the old preset");
    assert_eq!(folder.names().len(), before.len() + 1, "nothing is left beside it");
}

#[test]
fn a_script_that_fails_writes_nothing() {
    keeps_the_old_file("ram 0: 1\nexpect ram 0 2\n", 1, "s.desk:2:1: expected ram 00H 0002H, found 0001H");
    let refused = "`out` is refused: refusal 10, serial out with SORQ 0; no `reply` expects it";
    keeps_the_old_file("ram 0: 1\nout\n", 1, &format!("s.desk:2:1: {refused}"));
    keeps_the_old_file("run 1\nreply 6\n", 1, "s.desk:2:1: expected reply 6, found 0 (done)");
    keeps_the_old_file("samples 1\n", 1, "s.desk:1:1: 1 samples are said: found 0 `sent` before");
}

#[test]
fn a_bad_script_writes_nothing() {
    keeps_the_old_file("run 1\nfly\n", 2, &format!("s.desk:2:1: \"fly\": expected a statement: {}", names()));
    keeps_the_old_file("preset half.hex\n", 2, &format!("s.desk:1:8: half.hex:{}", half_is_refused()));
    keeps_the_old_file("preset none.hex\n", 2, "s.desk:1:8: none.hex: cannot read: No such file or directory (os error 2)");
    keeps_the_old_file("sent 0\n", 2, "s.desk:1:1: `sent`: expected an `out` before it");
}

fn names() -> String {
    desk::scripts::statement::NAMES.join(", ")
}

#[test]
fn an_old_file_is_replaced_by_a_whole_one() {
    let folder = Folder::new().with("s.desk", "ram 0: 1\n").with("new.hex", "x".repeat(5000));
    assert_eq!(folder.desk("preset write s.desk --out new.hex").status, 0);
    let mut cells = [0; 128];
    cells[0] = 1;
    assert_eq!((folder.text("new.hex"), folder.names().len()), (preset(&cells), 2));
}

#[test]
fn no_file_that_is_read_is_replaced() {
    let folder =
        whole_and_half().with("s.desk", "include part.desk\npreset p.hex\n").with("part.desk", "program program.hex\ndata data.hex\n");
    folder.write("program.hex", crate::images::program(&[]));
    folder.write("data.hex", crate::images::data(0, 1));
    folder.write("plain.desk", "run 1\n");
    symlink("part.desk", folder.0.join("link")).expect("a link");
    std::fs::hard_link(folder.0.join("p.hex"), folder.0.join("hard")).expect("a hard link");
    let given = "--program program.hex --data data.hex --preset p.hex";
    let mut cases: Vec<(String, &str)> = ["s.desk", "./part.desk", "p.hex", "program.hex", "data.hex", "link", "hard"]
        .map(|out| (format!("preset write s.desk --out {out}"), out))
        .to_vec();
    cases.extend(["p.hex", "program.hex", "data.hex", "hard"].map(|out| (format!("preset write plain.desk {given} --out {out}"), out)));
    for (line, out) in cases {
        let before = folder.read(out);
        let ran = folder.desk(&line);
        assert!(ran.status == 2 && ran.told.starts_with(&format!("desk: {out}: would replace ")), "{line}: {ran:?}");
        assert!(ran.told.ends_with(", which is read: expected another file\n"), "{ran:?}");
        assert!(folder.read(out) == before, "{out} is as it was");
    }
}

#[test]
fn a_script_that_is_redirected_is_not_replaced() {
    let folder = Folder::new().with("s.desk", "ram 0: 1\n");
    folder.shell("desk preset write - --out s.desk <s.desk").is_refused(2, "s.desk: would replace -, which is read: expected another file");
    assert_eq!(folder.text("s.desk"), "ram 0: 1\n");
}

#[test]
fn a_file_that_cannot_be_written_is_told() {
    let folder = Folder::new().with("s.desk", "ram 0: 1\n").with("inside/x", "");
    for (out, why) in
        [("inside", "it is not a file"), ("none/new.hex", "No such file or directory (os error 2)"), ("/dev/full", "it is not a file")]
    {
        folder.desk(&format!("preset write s.desk --out {out}")).is_refused(2, &format!("{out}: cannot write: {why}"));
    }
    assert_eq!(folder.names(), ["inside", "s.desk"]);
}
