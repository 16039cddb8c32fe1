//! `host/archive`, on a small project and with a stand-in for `rt`: when it has the archive made, and when it does not.
use std::fs;
use std::os::unix::fs::PermissionsExt;
use std::path::{Path, PathBuf};
use std::process::{Command, Output};

/// Counts what it is asked to make in a file `made`, and fails where there is a file `broken`; both at the root.
const RT: &str = r#"#!/bin/sh
case $1 in
version) cat version ;;
lib)
    name=${PWD##*/}
    cd ../..
    echo "$name" >>made
    [ ! -f broken ] || { echo "rt: $name NOT PROVED"; exit 1; }
    mkdir -p "crates/$name/out"
    cat crates/*/src/lib.rt >"crates/$name/out/lib$name.a"
    echo "rt: made"
    ;;
esac
"#;

const CRATES: &str =
    "# what the crates stand on\nbase:\nmiddle: base\nlekchnam staticlib: middle io # of the kit\nother: base\n";

/// A project of four crates; the archive's stands on two of them.
struct Project(PathBuf);

impl Project {
    fn new(name: &str) -> Self {
        let project = Self(Path::new(env!("CARGO_TARGET_TMPDIR")).join(name));
        if project.0.exists() {
            fs::remove_dir_all(&project.0).expect("the last run's");
        }
        project.write("crates.txt", CRATES);
        project.write("version", "kit 1");
        for crate_name in ["base", "middle", "lekchnam", "other"] {
            project.write(&format!("crates/{crate_name}/src/lib.rt"), crate_name);
            project.write(&format!("crates/{crate_name}/specs/Spec.antt"), crate_name);
        }
        project.write("bin/rt", RT);
        let script = fs::read_to_string(Path::new(env!("CARGO_MANIFEST_DIR")).join("archive")).expect("the script");
        project.write("host/archive", &script);
        for program in ["bin/rt", "host/archive"] {
            fs::set_permissions(project.at(program), fs::Permissions::from_mode(0o755)).expect("a program");
        }
        project
    }

    fn at(&self, path: &str) -> PathBuf {
        self.0.join(path)
    }

    fn write(&self, path: &str, text: &str) {
        let path = self.at(path);
        fs::create_dir_all(path.parent().expect("a folder")).expect("a folder");
        fs::write(path, text).expect("a file");
    }

    fn remove(&self, path: &str) {
        fs::remove_file(self.at(path)).expect("a file");
    }

    /// Runs the script, with the variable set to this.
    fn run(&self, setting: &str) -> Output {
        let path = format!("{}:{}", self.at("bin").display(), std::env::var("PATH").expect("a path"));
        let mut command = Command::new(self.at("host/archive"));
        command.env("PATH", path).env("LEKCHNAM_STATICLIB", setting).output().expect("it runs")
    }

    /// Whether a run asked `rt` for the archive, now that this was done.
    fn makes(&self, done: impl FnOnce(&Self)) -> bool {
        done(self);
        let _ = fs::remove_file(self.at("made"));
        let output = self.run("");
        assert!(output.status.success(), "{output:?}");
        self.at("made").exists()
    }
}

type Change = (&'static str, fn(&Project));

#[test]
fn the_archive_is_made_where_something_that_it_is_made_of_has_changed() {
    let project = Project::new("changed");
    let changes: [Change; 9] = [
        ("from nothing", |_| {}),
        ("code", |project| project.write("crates/lekchnam/src/lib.rt", "other code")),
        ("a specification", |project| project.write("crates/middle/specs/Spec.antt", "another")),
        ("a proof that is new", |project| project.write("crates/base/proofs/it/Proof.antt", "a proof")),
        ("a proof that is gone", |project| project.remove("crates/base/proofs/it/Proof.antt")),
        ("the list of crates", |project| project.write("crates.txt", &CRATES.replace("io", "io libc"))),
        ("the kit", |project| project.write("version", "kit 2")),
        ("the archive is gone", |project| project.remove("target/staticlib/liblekchnam.a")),
        ("the archive is another", |project| project.write("target/staticlib/liblekchnam.a", "another")),
    ];
    for (what, change) in changes {
        assert!(project.makes(change), "{what}");
        assert!(!project.makes(|_| {}), "nothing since: {what}");
    }
    // times do not count, nor what the archive does not stand on
    assert!(!project.makes(|project| project.write("crates/middle/specs/Spec.antt", "another")));
    assert!(!project.makes(|project| project.write("crates/other/src/lib.rt", "other code")));
    assert!(!project.makes(|project| project.write("crates/base/must-fail/wrong.edit", "an edit")));
}

#[test]
fn what_is_not_proved_is_an_error_until_it_is() {
    let project = Project::new("broken");
    assert!(project.makes(|_| {}));
    project.write("broken", "");
    project.write("crates/base/src/lib.rt", "wrong code");
    for _ in 0..2 {
        let output = project.run("");
        assert_eq!(output.status.code(), Some(1));
        assert!(String::from_utf8_lossy(&output.stdout).contains("rt: lekchnam NOT PROVED"));
    }
    project.remove("broken");
    assert!(project.makes(|_| {}));
}

#[test]
fn a_folder_that_is_named_must_have_the_archive() {
    let project = Project::new("named");
    project.write("elsewhere/empty/other.a", "");
    project.write("elsewhere/full/liblekchnam.a", "");
    for (folder, code) in [("../elsewhere/empty", 1), ("../elsewhere/none", 1), ("../elsewhere/full", 0)] {
        let absolute = project.at("host").join(folder).display().to_string();
        for setting in [folder, &absolute] {
            let output = project.run(setting);
            assert_eq!(output.status.code(), Some(code), "{setting}");
            let said = String::from_utf8_lossy(&output.stderr).into_owned();
            assert_eq!(said.contains(setting) && said.contains("no liblekchnam.a"), code == 1, "{said}");
        }
    }
    assert!(!project.at("made").exists() && !project.at("target").exists());
}
