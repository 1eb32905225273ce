//! The scripts of bin/, in a folder with a stand-in for rt and one for cargo: what they say,
//! when they prove and build, and what they refuse before that.

use std::fs;
use std::io::Write;
use std::os::unix::fs::symlink;
use std::path::{Path, PathBuf};
use std::process::{Command, Output, Stdio};

const PRINTED_TEXT: &str = include_str!("sessions/printed.txt");

const CRATES: &str = "# crates\nrules:\nwire: rules\n\nsheet: rules wire # a program\n\
    short_sheets: rules\nc_api: wire\ndispatch: wire\nc_api_c staticlib: c_api\n\
    dispatch_c staticlib: dispatch\nother: sheet\n";

/// Proves a crate and those below it, and makes its program or archive; refuses where the file
/// refuse is there. A program whose name stands in the file fails ends with that status.
const RT: &str = r#"#!/bin/sh
me=${PWD##*/}
cd ../..
echo "$1 $me" >>calls
exec 3>&1
# Under run the check's lines come on standard error.
[ "$1" != run ] || exec 1>&2
prove() {
    [ ! -e "crates/$1/out/proved" ] || return 0
    echo "rt: chose --jobs 2 for $1"
    if [ "$1" = wire ] && [ -e refuse ]; then
        echo 'expected a proof' >&2
        echo 'fn wire::u16_at: not proved'
        echo 'logic=not-proved fns=1'
        echo 'rt: the library wire did not build, so nothing above it was checked' >&2
        exit 1
    fi
    echo "logic=proved fns=1 crate $1"
    mkdir -p "crates/$1/out"
    : >"crates/$1/out/proved"
}
echo begin >>turns
[ ! -e slow ] || sleep 1
prove rules
[ "$me" = short_sheets ] || prove wire
case $me in *_c) prove "${me%_c}" ;; esac
prove "$me"
status=0
case $1 in
run)
    program=crates/$me/out/$me
    printf '#!/bin/sh\necho "%s of $(wc -c) bytes"\n' "$me" >"$program"
    [ ! -e fails ] || cat fails >>"$program"
    chmod +x "$program"
    echo "rt: running out/$me; to give it other input, run that file yourself"
    "$program" 1>&3 || status=$?
    ;;
lib)
    : >"crates/$me/out/lib$me.a"
    ;;
esac
echo end >>turns
exit "$status"
"#;

/// Writes the program of a package: venue is the tool itself.
const CARGO: &str = r#"#!/bin/sh
for package in "$@"; do :; done
mkdir -p "$CARGO_TARGET_DIR/release"
[ ! -e "$CARGO_TARGET_DIR/../../spoiled" ] || { echo 'error: spoiled' >&2; exit 101; }
case $package in
venue) cp "$VENUE" "$CARGO_TARGET_DIR/release/venue" ;;
*) printf '#!/bin/sh\necho "%s $*"\n' "$package" >"$CARGO_TARGET_DIR/release/$package" ;;
esac
chmod +x "$CARGO_TARGET_DIR/release/$package"
"#;

/// The programs that the scripts may use.
const TOOLS: [&str; 26] = [
    "awk", "bash", "cat", "chmod", "cp", "dirname", "env", "find", "flock", "grep", "head", "ln",
    "mkdir", "mktemp", "mv", "od", "readlink", "rm", "rmdir", "sed", "sh", "sleep", "sort", "tail",
    "tr", "wc",
];

/// A copy of bin/ with the stand-ins, gone when the test ends.
struct Tree(PathBuf);

impl Tree {
    fn new(name: &str) -> Self {
        let root = std::env::temp_dir().join(format!("bin-{name}-{}", std::process::id()));
        let _ = fs::remove_dir_all(&root);
        for folder in ["bin", "tools", "host", "elsewhere"] {
            fs::create_dir_all(root.join(folder)).unwrap();
        }
        for name in [
            "rules",
            "wire",
            "sheet",
            "short_sheets",
            "c_api",
            "dispatch",
            "c_api_c",
            "dispatch_c",
        ] {
            fs::create_dir_all(root.join("crates").join(name).join("src")).unwrap();
        }
        let bin = Path::new(env!("CARGO_MANIFEST_DIR")).join("../../bin/.");
        let mut copy = Command::new("cp");
        let copied = copy.arg("-R").arg(bin).arg(root.join("bin")).status();
        assert!(copied.unwrap().success());
        fs::write(root.join("crates.txt"), CRATES).unwrap();
        let path = std::env::var_os("PATH").unwrap();
        for tool in TOOLS {
            let mut found = std::env::split_paths(&path).map(|folder| folder.join(tool));
            if let Some(found) = found.find(|file| file.is_file()) {
                symlink(found, root.join("tools").join(tool)).unwrap();
            }
        }
        let tree = Tree(root);
        tree.stand_in("rt", RT);
        tree.stand_in("cargo", CARGO);
        tree
    }

    /// Writes a program, by a program of its own: a file that this one has open for writing
    /// cannot be started by another test.
    fn stand_in(&self, name: &str, script: &str) {
        let mut child = Command::new("sh")
            .args(["-c", "cat >\"$0\" && chmod +x \"$0\""])
            .arg(self.0.join("tools").join(name))
            .stdin(Stdio::piped())
            .spawn()
            .unwrap();
        let written = child.stdin.take().unwrap().write_all(script.as_bytes());
        written.unwrap();
        assert!(child.wait().unwrap().success());
    }

    fn path(&self, name: &str) -> PathBuf {
        self.0.join(name)
    }

    fn write(&self, name: &str, contents: &[u8]) -> PathBuf {
        let file = self.path(name);
        fs::write(&file, contents).unwrap();
        file
    }

    fn read(&self, name: &str) -> String {
        fs::read_to_string(self.path(name)).unwrap_or_default()
    }

    fn command(&self, program: &Path) -> Command {
        let mut command = Command::new(program);
        command
            .current_dir(self.path("elsewhere"))
            .env_clear()
            .env("PATH", self.path("tools"))
            .env("VENUE", env!("CARGO_BIN_EXE_venue"))
            .stdin(Stdio::null());
        command
    }

    fn run(&self, script: &str, arguments: &[&str]) -> (i32, String, String) {
        told(
            self.command(&self.path(script))
                .args(arguments)
                .output()
                .unwrap(),
        )
    }
}

impl Drop for Tree {
    fn drop(&mut self) {
        let _ = fs::remove_dir_all(&self.0);
    }
}

fn told(output: Output) -> (i32, String, String) {
    let text = |bytes: Vec<u8>| String::from_utf8(bytes).unwrap();
    let status = output.status.code().unwrap();
    (status, text(output.stdout), text(output.stderr))
}

/// Six bytes of a message.
const STATUS: [u8; 6] = [6, 0, 5, 0, 0, 1];

#[test]
fn the_first_sheet_tells_how_long_it_takes_and_what_is_proved() {
    let tree = Tree::new("first");
    tree.write("elsewhere/session", &STATUS);
    let (status, sheet, said) = tree.run("bin/sheet", &["session"]);
    assert_eq!(
        (status, sheet.as_str()),
        (0, "sheet of 6 bytes\n"),
        "{said}"
    );
    let expected = "bin/sheet: proving and building the program and all that it stands on, \
        3 crates, this once: up to 20 minutes\n\
        bin/sheet: 1 of 3 crates proved: rules\n\
        bin/sheet: 2 of 3 crates proved: wire\n\
        bin/sheet: 3 of 3 crates proved: sheet\n";
    assert_eq!(said, expected);
    assert!(tree
        .read("target/log/bin-sheet.log")
        .contains("logic=proved fns=1 crate wire\n"));
    let again = tree.run("bin/sheet", &["session"]);
    assert_eq!(again, (0, "sheet of 6 bytes\n".to_string(), String::new()));
    fs::remove_file(tree.path("crates/wire/out/proved")).unwrap();
    let (_, _, said) = tree.run("bin/sheet", &["session"]);
    assert_eq!(said, "bin/sheet: 2 of 3 crates proved: wire\n");
}

#[test]
fn on_a_terminal_what_is_proved_is_one_line() {
    let tree = Tree::new("terminal");
    let script = "import pty, sys; sys.exit(pty.spawn(sys.argv[1:]) >> 8)";
    let mut command = tree.command(Path::new("python3"));
    let others = std::env::var_os("PATH").unwrap();
    let folders = std::env::split_paths(&others);
    let folders = std::iter::once(tree.path("tools")).chain(folders);
    command.env("PATH", std::env::join_paths(folders).unwrap());
    command.args(["-c", script]).arg(tree.path("bin/sheet"));
    let output = command.arg("/dev/null").output();
    let (status, shown, _) = told(output.unwrap());
    let line = |name: &str| format!("\rbin/sheet: {name}\x1b[K");
    let expected = format!(
        "{}{}{}\r\x1b[Ksheet of 0 bytes\r\n",
        line("1 of 3 crates proved: rules"),
        line("2 of 3 crates proved: wire"),
        line("3 of 3 crates proved: sheet")
    );
    assert!(shown.ends_with(&expected), "{shown:?}");
    assert_eq!(status, 0);
}

/// `rt ci` removes what rt made in crates/NAME/out.
#[test]
fn a_program_stays_where_the_crates_lose_what_rt_made() {
    let tree = Tree::new("kept");
    tree.run("bin/short", &[]);
    for name in ["rules", "short_sheets"] {
        fs::remove_dir_all(tree.path("crates").join(name).join("out")).unwrap();
    }
    let (status, printed, said) = tree.run("bin/short", &[]);
    assert_eq!((status, printed.as_str()), (0, "short_sheets of 0 bytes\n"));
    let expected = "bin/short: 1 of 2 crates proved: rules\n\
        bin/short: 2 of 2 crates proved: short_sheets\n";
    assert_eq!(said, expected);
    assert_eq!(tree.read("calls"), "run short_sheets\n".repeat(2));
}

#[test]
fn a_program_that_fails_is_told_and_not_as_refused() {
    let tree = Tree::new("fails");
    for (name, ends, expected) in [
        ("says", "echo 'torn' >&2\n", "torn\n"),
        ("both", "echo 'torn' >&2\nexit 7\n", "torn\n"),
        (
            "ends",
            "exit 7\n",
            "bin/sheet: the program ended with status 7\n",
        ),
    ] {
        tree.write("fails", ends.as_bytes());
        let (status, sheet, said) = tree.run("bin/sheet", &[]);
        assert!(said.ends_with(expected), "{name}: {said}");
        assert!(!said.contains("rt ended"), "{name}: {said}");
        assert_eq!(
            (status, sheet.as_str()),
            (1, "sheet of 0 bytes\n"),
            "{name}"
        );
    }
}

#[test]
fn what_is_refused_is_told_with_the_log() {
    let tree = Tree::new("refused");
    tree.write("refuse", b"");
    let (status, sheet, said) = tree.run("bin/sheet", &[]);
    assert_eq!((status, sheet.as_str()), (1, ""));
    let log = tree.path("target/log/bin-sheet.log");
    let log = log.canonicalize().unwrap();
    let end = format!(
        "fn wire::u16_at: not proved\n\
         rt: the library wire did not build, so nothing above it was checked\n\
         bin/sheet: rt ended with status 1; all that it said is in {}\n",
        log.display()
    );
    assert!(said.ends_with(&end), "{said}");
    assert!(fs::read_to_string(log)
        .unwrap()
        .contains("expected a proof\n"));
    fs::remove_file(tree.path("tools/rt")).unwrap();
    let (status, _, said) = tree.run("bin/sheet", &[]);
    assert!(
        said.contains("rt, the Rattle toolchain, is not in PATH"),
        "{said}"
    );
    assert_eq!(status, 1);
}

#[test]
fn a_symbolic_link_to_a_script_works() {
    let tree = Tree::new("link");
    tree.write("elsewhere/session.txt", PRINTED_TEXT.as_bytes());
    symlink("../bin/sheet", tree.path("elsewhere/first")).unwrap();
    symlink("first", tree.path("elsewhere/second")).unwrap();
    let (status, sheet, said) = tree.run("elsewhere/second", &["--text", "session.txt"]);
    assert_eq!(
        (status, sheet.as_str()),
        (0, "sheet of 87 bytes\n"),
        "{said}"
    );
    symlink("../bin/venue", tree.path("elsewhere/tool")).unwrap();
    let (status, sheet, said) = tree.run("elsewhere/tool", &["sheet", "--text", "session.txt"]);
    assert!(sheet.starts_with("64 1 0 0 0\n"), "{said}");
    assert_eq!((status, said.as_str()), (0, ""));
}

#[test]
fn wrong_sessions_are_told_before_anything_is_proved() {
    let tree = Tree::new("wrong");
    tree.write("elsewhere/a session", b"open 0\nsweep\n");
    tree.write("elsewhere/wrong", b"sweep\n\nswep\n");
    let text = "this looks like text: use --text, or --bytes to take it as bytes\n";
    let torn = "message 1 at byte 0 is torn: its length is 0, below 4, and more than 65535 bytes \
        follow\n";
    for (arguments, expected) in [
        (&["a session"][..], format!("bin/sheet: a session: {text}")),
        (&["/dev/zero"], format!("bin/sheet: /dev/zero: {torn}")),
        (
            &["--bytes", "/dev/zero"],
            format!("bin/sheet: /dev/zero: {torn}"),
        ),
    ] {
        let (status, sheet, said) = tree.run("bin/sheet", arguments);
        assert_eq!((status, sheet.as_str(), said), (1, "", expected));
    }
    for (file, expected) in [
        ("wrong", "venue encode: wrong: line 3: expected a message"),
        (
            "/dev/zero",
            "venue encode: /dev/zero: line 1: it has more than 1048576 bytes\n",
        ),
        ("none", "venue encode: none: "),
    ] {
        let (status, sheet, said) = tree.run("bin/sheet", &["--text", file]);
        assert!(said.contains(expected), "{said}");
        let end = format!("bin/sheet: {file}: the text was not encoded\n");
        assert!(said.ends_with(&end), "{said}");
        assert_eq!((status, sheet.as_str()), (1, ""));
    }
    let (status, _, said) = tree.run("bin/sheet", &["none"]);
    assert!(
        said.starts_with("bin/sheet: head: ") && said.contains("none"),
        "{said}"
    );
    assert_eq!(status, 1);
    assert_eq!(tree.read("calls"), "");
}

#[test]
fn any_bytes_are_taken_where_that_is_asked_for() {
    let tree = Tree::new("bytes");
    tree.write("elsewhere/--text", b"open 0\n");
    let (status, sheet, _) = tree.run("bin/sheet", &["--bytes", "--", "--text"]);
    assert_eq!((status, sheet.as_str()), (0, "sheet of 7 bytes\n"));
    for arguments in [&["a", "b"][..], &["--txt"], &["-x"]] {
        let (status, _, said) = tree.run("bin/sheet", arguments);
        assert!(said.ends_with("\ntry: bin/sheet --help\n"), "{said}");
        assert_eq!(status, 2);
    }
    let (status, help, _) = tree.run("bin/sheet", &["--help"]);
    assert!(help.contains("up to 20 minutes"), "{help}");
    assert_eq!(status, 0);
}

#[test]
fn a_long_session_is_cut_where_the_program_stops() {
    let tree = Tree::new("long");
    tree.write("elsewhere/long", &[4, 0, 6, 0].repeat(20_000));
    tree.write("elsewhere/long.txt", "sweep\n".repeat(200_000).as_bytes());
    for arguments in [&["long"][..], &["--text", "long.txt"]] {
        let (status, sheet, said) = tree.run("bin/sheet", arguments);
        assert_eq!((status, sheet.as_str()), (0, "sheet of 65537 bytes\n"));
        let note = format!(
            "{}: only the first 65,536 bytes are run",
            arguments.last().unwrap()
        );
        assert!(said.contains(&note), "{said}");
    }
    tree.write("elsewhere/most", &[4, 0, 6, 0].repeat(16_384));
    let most = tree.run("bin/sheet", &["most"]);
    assert_eq!(
        most,
        (0, "sheet of 65536 bytes\n".to_string(), String::new())
    );
}

/// The crates that the scripts name stand in the project's own crates.txt: the one here is a
/// stand-in, which a crate that is renamed does not reach.
#[test]
fn scripts_name_crates_that_there_are() {
    let top = Path::new(env!("CARGO_MANIFEST_DIR")).join("../..");
    let crates = fs::read_to_string(top.join("crates.txt")).unwrap();
    let named = |text: &str| {
        crates
            .lines()
            .filter_map(|line| line.split_once(':'))
            .any(|(name, _)| name.split(' ').next() == Some(text))
    };
    let mut programs = Vec::new();
    for entry in fs::read_dir(top.join("bin")).unwrap() {
        let script = fs::read_to_string(entry.unwrap().path()).unwrap();
        let proved = script
            .lines()
            .filter_map(|line| line.strip_prefix("prove_program "));
        programs.extend(proved.map(str::to_string));
        let archives = script
            .lines()
            .find_map(|line| line.strip_prefix("ARCHIVES=("));
        let archives = archives.map_or("", |rest| rest.trim_end_matches(')'));
        programs.extend(archives.split_whitespace().map(str::to_string));
    }
    programs.sort();
    assert_eq!(programs, ["c_api_c", "dispatch_c", "sheet", "short_sheets"]);
    for program in programs {
        assert!(named(&program), "{program} is no crate");
    }
}

#[test]
fn two_scripts_at_once_prove_one_after_the_other() {
    let tree = Tree::new("twice");
    tree.write("slow", b"");
    let start = |script: &str| {
        let mut command = tree.command(&tree.path(script));
        command.stdout(Stdio::piped()).stderr(Stdio::piped());
        command.spawn().unwrap()
    };
    let both = [start("bin/sheet"), start("bin/short")];
    let said: Vec<String> = both
        .into_iter()
        .map(|child| {
            let (status, _, said) = told(child.wait_with_output().unwrap());
            assert_eq!(status, 0, "{said}");
            said
        })
        .collect();
    assert_eq!(tree.read("turns"), "begin\nend\nbegin\nend\n");
    let waits = said
        .iter()
        .filter(|said| said.contains("waiting for another script"));
    assert_eq!(waits.count(), 1, "{said:?}");
}

#[test]
fn the_tool_is_built_once_and_then_silent() {
    let tree = Tree::new("tool");
    tree.write("elsewhere/a session.txt", PRINTED_TEXT.as_bytes());
    let arguments = ["sheet", "--text", "a session.txt"];
    let (status, sheet, said) = tree.run("bin/venue", &arguments);
    assert!(sheet.ends_with("68 3 0 0 3\n68 3 1 0 3\n"), "{sheet}");
    assert_eq!(
        (status, said.as_str()),
        (
            0,
            "bin/venue: building host/target/release/venue, this once\n"
        )
    );
    let again = tree.run("bin/venue", &arguments);
    assert_eq!(again, (0, sheet, String::new()));
    let (status, _, said) = tree.run("bin/venue", &["sheet", "--txt"]);
    assert!(said.ends_with("\ntry: venue help sheet\n"), "{said}");
    assert_eq!(status, 2);
    tree.write("spoiled", b"");
    let (status, _, said) = tree.run("bin/venue", &["--version"]);
    let expected = "error: spoiled\nbin/venue: host/target/release/venue was not built\n";
    assert_eq!((status, said.as_str()), (1, expected));
    fs::remove_file(tree.path("tools/cargo")).unwrap();
    let (status, version, _) = tree.run("bin/venue", &["--version"]);
    let expected = format!("venue {}\n", env!("CARGO_PKG_VERSION"));
    assert_eq!((status, version), (0, expected));
    fs::remove_dir_all(tree.path("host/target")).unwrap();
    let (status, _, said) = tree.run("bin/venue", &["--version"]);
    assert!(
        said.contains("cargo, which Rust has, is not in PATH"),
        "{said}"
    );
    assert_eq!(status, 1);
}

#[test]
fn a_comparison_proves_and_builds_what_it_needs() {
    let tree = Tree::new("compare");
    let (status, _, said) = tree.run("bin/venue", &["compare", "--help"]);
    assert_eq!((status, tree.read("calls").as_str()), (0, ""), "{said}");
    let (status, told, said) = tree.run("bin/venue", &["compare", "--text", "a b"]);
    assert_eq!(
        (status, told.as_str()),
        (0, "compare session --text -- a b\n"),
        "{said}"
    );
    assert_eq!(tree.read("calls"), "lib c_api_c\nlib dispatch_c\n");
    assert!(
        said.contains("bin/venue: 2 of 6 crates proved: wire\n"),
        "{said}"
    );
    assert!(
        said.contains("bin/venue: 6 of 6 crates proved: dispatch_c\n"),
        "{said}"
    );
    // What rt makes beside the sources is no source.
    tree.write("crates/wire/out/younger", b"");
    let (_, _, said) = tree.run("bin/venue", &["compare", "x"]);
    assert_eq!((said.as_str(), tree.read("calls").lines().count()), ("", 2));
    tree.write("crates/wire/src/younger", b"");
    tree.run("bin/venue", &["compare", "x"]);
    assert_eq!(tree.read("calls").lines().count(), 4);
}

#[test]
fn a_comparison_without_its_program_tells_how_it_is_built() {
    let tree = Tree::new("beside");
    tree.run("bin/venue", &["--version"]);
    let tool = "host/target/release/venue";
    let (status, printed, said) = tree.run(tool, &["compare", "session"]);
    let beside = tree.path("host/target/release/compare");
    let beside = beside.parent().unwrap().canonicalize().unwrap();
    let start = format!(
        "venue compare: the program is not there: {}/compare\nbuild it",
        beside.display()
    );
    assert!(said.starts_with(&start), "{said}");
    assert!(
        said.contains("\n  (cd crates/c_api_c && rt lib) &&"),
        "{said}"
    );
    assert_eq!((status, printed.as_str()), (1, ""));
    let (status, _, said) = tree.run(tool, &["compare"]);
    assert!(said.starts_with("venue compare: expected a session to compare\n"));
    assert_eq!(status, 2);
    tree.run("bin/venue", &["compare", "x"]);
    let (status, printed, _) = tree.run(tool, &["compare", "--bytes", "--", "--text"]);
    let expected = "compare session --bytes -- --text\n";
    assert_eq!((status, printed.as_str()), (0, expected));
}

/// A tree with what is installed besides programs and archives.
fn tree_to_install(name: &str) -> Tree {
    let tree = Tree::new(name);
    for folder in ["include", "docs"] {
        fs::create_dir_all(tree.path(folder)).unwrap();
    }
    tree.write("VERSION", b"1.2.3\n");
    tree.write("include/legging.h", b"the header\n");
    tree.write("docs/legging.7", b"legging @VERSION@\n");
    tree
}

#[test]
fn an_installation_proves_and_builds_what_is_missing() {
    let tree = tree_to_install("install");
    let (status, placed, said) = tree.run("bin/install", &["prefix"]);
    assert_eq!((status, placed.lines().count()), (0, 12), "{said}");
    for expected in [
        "bin/install: proving and building the engine's archives and all that they stand on: about 20 minutes\n",
        "bin/install: proving dispatch_c and writing target/staticlib/libdispatch.a\n",
        "bin/install: proving and building the program and all that it stands on, 3 crates, this once: up to 20 minutes\n",
        "bin/install: building host/target/release/venue, this once\n",
    ] {
        assert!(said.contains(expected), "{said}");
    }
    let last = format!(
        "bin/install: legging 1.2.3 was installed into {}/prefix in ",
        tree.path("elsewhere").display()
    );
    assert!(said.lines().last().unwrap().starts_with(&last), "{said}");
    let page = tree.read("elsewhere/prefix/share/man/man7/legging.7");
    assert_eq!(page, "legging 1.2.3\n");
    // What was installed runs by itself, and nothing is proved for it.
    let calls = tree.read("calls");
    fs::rename(tree.path("crates.txt"), tree.path("gone.txt")).unwrap();
    tree.write("elsewhere/session.txt", PRINTED_TEXT.as_bytes());
    let printed = tree.run("elsewhere/prefix/bin/sheet", &["--text", "session.txt"]);
    assert_eq!(
        printed,
        (0, "sheet of 87 bytes\n".to_string(), String::new())
    );
    assert_eq!(tree.read("calls"), calls);
    fs::rename(tree.path("gone.txt"), tree.path("crates.txt")).unwrap();
    // The second time all is there.
    let (status, again, said) = tree.run("bin/install", &["prefix"]);
    assert_eq!((status, again), (0, placed));
    assert!(said.starts_with(&last), "{said}");
}

#[test]
fn an_installation_that_is_not_proved_leaves_nothing() {
    let tree = tree_to_install("install-refused");
    tree.write("refuse", b"");
    let (status, placed, said) = tree.run("bin/install", &["new/prefix"]);
    assert_eq!((status, placed.as_str()), (1, ""));
    assert!(said.contains(": not proved\n"), "{said}");
    assert!(!tree.path("elsewhere/new").exists());
}
