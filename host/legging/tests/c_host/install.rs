//! `bin/install`: what it puts into an empty folder, and hosts built with it there.

use super::programs::{archives, empty_folder, file, is_installed, output_of, run, source, top};
use super::SESSION;
use sessions::text::encode_session;
use std::path::{Path, PathBuf};
use std::process::{Command, Output};
use std::sync::OnceLock;

/// Runs bin/install with the archives that the wrapper links, and for the printing program
/// one that copies its input: nothing is proved here.
fn install(arguments: &[&str]) -> Output {
    let mut program = Command::new(top().join("bin/install"));
    program
        .args(arguments)
        .env("LEGGING_ARCHIVE", env!("ARCHIVES"))
        .env("LEGGING_SHEET", "/bin/cat");
    output_of(&mut program, &[])
}

/// A folder that it was installed into once.
fn installed() -> &'static Path {
    static PREFIX: OnceLock<PathBuf> = OnceLock::new();
    PREFIX.get_or_init(|| {
        let prefix = empty_folder("installed").join("new/prefix");
        let output = install(&[prefix.to_str().expect("text")]);
        let told = String::from_utf8_lossy(&output.stderr);
        assert!(output.status.success(), "{told}");
        let last = format!("was installed into {} in ", prefix.display());
        assert!(told.contains(&last), "{told}");
        prefix
    })
}

/// All files below a folder, by their names from there, in order.
fn files_below(folder: &Path) -> Vec<String> {
    let output = Command::new("find")
        .current_dir(folder)
        .args([".", "!", "-type", "d"])
        .output();
    let told = String::from_utf8(output.expect("find").stdout).expect("text");
    let mut names: Vec<String> = told.lines().map(|line| line[2..].to_string()).collect();
    names.sort();
    names
}

const PAGE: &str = "share/man/man7/legging.7";

const FILES: [&str; 12] = [
    "bin/sheet",
    "bin/venue",
    "include/legging.h",
    "lib/liblegging.a",
    "lib/liblegging_layer.a",
    "lib/pkgconfig/legging.pc",
    "lib/pkgconfig/legging_layer.pc",
    "libexec/legging/bin/lib.sh",
    "libexec/legging/bin/sheet",
    "libexec/legging/bin/venue",
    "libexec/legging/target/bin/sheet",
    PAGE,
];

#[test]
fn all_parts_are_installed_and_nothing_else() {
    let prefix = installed();
    assert_eq!(files_below(prefix), FILES);
    let version = include_str!("../../../../VERSION").trim();
    let page = std::fs::read_to_string(prefix.join(PAGE)).expect("the manual page");
    assert!(page.contains(&format!("\"legging {version}\"")), "{page}");
    for (name, archive) in ["liblegging.a", "liblegging_layer.a"]
        .iter()
        .zip(archives())
    {
        let bytes = std::fs::read(prefix.join("lib").join(name)).expect("an archive");
        assert!(
            bytes == std::fs::read(archive).expect("an archive"),
            "{name}"
        );
    }
}

/// What a shell makes of `pkg-config --cflags --libs`: where it is not installed, the lines
/// of the same file with their variables filled in.
const FLAGS: &str = r#"
flags() {
    if command -v pkg-config >/dev/null; then pkg-config --cflags --libs "$1"; return; fi
    (prefix=$(sed -n 's/^prefix=//p' "$PKG_CONFIG_PATH/$1.pc")
    sed -n 's/^Cflags: //p; s/^Libs: //p' "$PKG_CONFIG_PATH/$1.pc" |
        sed "s|\${includedir}|$prefix/include|; s|\${libdir}|$prefix/lib|")
}
"#;

/// Builds a program in an empty folder with what was installed alone, by a line of shell.
fn built_there(folder: &str, name: &str, line: &str) -> PathBuf {
    let folder = empty_folder(folder);
    let sources = std::fs::read_dir(top().join("examples/c")).expect("the folder");
    for from in sources.map(|entry| entry.expect("an entry").path()) {
        std::fs::copy(&from, folder.join(from.file_name().expect("a name"))).expect("copied");
    }
    let mut shell = Command::new("sh");
    shell
        .current_dir(&folder)
        .env("PKG_CONFIG_PATH", installed().join("lib/pkgconfig"))
        .args(["-ec", &format!("{FLAGS}\n{line}")]);
    let output = output_of(&mut shell, &[]);
    let told = String::from_utf8_lossy(&output.stderr);
    assert!(output.status.success() && told.is_empty(), "{told}");
    folder.join(name)
}

#[test]
fn hosts_are_built_in_an_empty_folder() {
    let messages = encode_session(SESSION).expect("the stored session is good");
    let host = built_there("hosts", "host", "cc host.c $(flags legging) -o host");
    let (status, told, _) = run(&host, &["--each"], &messages);
    assert!(status == 0 && told.contains("66 3 205 5\n"), "{told}");
    let four = built_there("fours", "four", "cc four.c $(flags legging_layer) -o four");
    let list = file("installed-list", &messages);
    let (status, told, _) = run(&four, &[&list, "/dev/null", "/dev/null", "/dev/null"], &[]);
    assert!(status == 0 && told.contains("0: 66 3 205 5\n"), "{told}");
    let both = "cc upgrade_layer.c $(flags legging) $(flags legging_layer) -o both";
    let both = built_there("boths", "both", both);
    assert_eq!(run(&both, &["--help"], &[]).0, 0);
    assert!(source("host").is_file());
}

#[test]
fn pkg_config_tells_the_version() {
    if !is_installed("pkg-config") {
        return;
    }
    let mut asked = Command::new("pkg-config");
    asked.env("PKG_CONFIG_PATH", installed().join("lib/pkgconfig"));
    let output = output_of(
        asked.args(["--modversion", "legging", "legging_layer"]),
        &[],
    );
    let version = include_str!("../../../../VERSION");
    let told = String::from_utf8(output.stdout).expect("text");
    assert_eq!(told, version.repeat(2));
}

#[test]
fn programs_run_where_they_were_installed() {
    let prefix = installed();
    let session = file("installed-session.txt", SESSION.as_bytes());
    let (status, told, _) = run(
        &prefix.join("bin/venue"),
        &["sheet", "--text", &session],
        &[],
    );
    assert!(status == 0 && told.contains("66 3 205 5\n"), "{told}");
    // The program that stands for the printing one copies its input: the messages' bytes.
    let mut sheet = Command::new(prefix.join("bin/sheet"));
    let printed = output_of(sheet.current_dir("/").args(["--text", &session]), &[]);
    let told = String::from_utf8_lossy(&printed.stderr);
    assert!(printed.status.success() && told.is_empty(), "{told}");
    assert_eq!(
        printed.stdout,
        encode_session(SESSION).expect("a good session")
    );
}

#[test]
fn the_manual_page_is_without_a_fault() {
    if !is_installed("groff") {
        return;
    }
    let mut groff = Command::new("groff");
    let page = installed().join(PAGE);
    let output = output_of(groff.args(["-man", "-ww", "-Tutf8"]).arg(page), &[]);
    let told = String::from_utf8_lossy(&output.stderr);
    assert!(output.status.success() && told.is_empty(), "{told}");
}

/// The error of an installation that fails.
fn refused(arguments: &[&str], status: i32) -> String {
    let output = install(arguments);
    assert_eq!(output.status.code(), Some(status), "{arguments:?}");
    assert!(output.stdout.is_empty());
    String::from_utf8(output.stderr).expect("text")
}

#[test]
fn wrong_uses_are_told() {
    for (arguments, told) in [
        (&[][..], "expected a folder to install into"),
        (&["a", "b"], "argument b is one too many"),
        (&["--what"], "option --what is not known"),
        (&[""], "found an empty word"),
        (
            &["/a b"],
            "pkg-config cannot tell a folder of this name: /a b",
        ),
    ] {
        let error = refused(arguments, 2);
        assert!(
            error.contains(told) && error.contains("try: bin/install --help"),
            "{error}"
        );
    }
    let help = String::from_utf8(install(&["--help"]).stdout).expect("text");
    assert!(help.starts_with("bin/install PREFIX\n"), "{help}");
    let inside = file("install-file", b"");
    for prefix in [inside.clone(), format!("{inside}/below")] {
        let error = refused(&[&prefix], 1);
        assert!(
            error.starts_with("bin/install: PREFIX cannot be written: "),
            "{error}"
        );
    }
}

/// A folder where one part cannot be put into place, late: what stood there stays, and
/// nothing else is left.
#[test]
fn an_installation_that_fails_leaves_the_folder_as_it_was() {
    let prefix = empty_folder("half");
    std::fs::create_dir_all(prefix.join("bin")).expect("a folder");
    std::fs::create_dir_all(prefix.join("share/man/man7/legging.7")).expect("a folder");
    std::fs::write(prefix.join("bin/venue"), "an older one").expect("written");
    let error = refused(&[prefix.to_str().expect("text")], 1);
    let told = format!("{}/share/man/man7/legging.7 is a folder", prefix.display());
    assert!(error.contains(&told), "{error}");
    assert_eq!(files_below(&prefix), ["bin/venue"]);
    let old = std::fs::read(prefix.join("bin/venue")).expect("the older one");
    assert_eq!(old, b"an older one");
    let mut found: Vec<_> = std::fs::read_dir(&prefix)
        .expect("the folder")
        .map(|entry| entry.expect("an entry").file_name())
        .collect();
    found.sort();
    assert_eq!(found, ["bin", "share"]);
}

#[test]
fn archives_that_are_not_there_are_told_and_nothing_is_left() {
    let prefix = empty_folder("no-archives");
    for (paths, told) in [
        ("/no/liba.a:/no/libb.a", "not read: /no/liba.a"),
        (
            "/no/liba.a",
            "expected 2 archives in LEGGING_ARCHIVE, found 1",
        ),
    ] {
        let mut program = Command::new(top().join("bin/install"));
        program
            .arg(&prefix)
            .env("LEGGING_ARCHIVE", paths)
            .env("LEGGING_SHEET", "/bin/cat");
        let output = output_of(&mut program, &[]);
        assert_eq!(output.status.code(), Some(1));
        let error = String::from_utf8_lossy(&output.stderr);
        assert!(error.contains(told), "{error}");
        assert_eq!(std::fs::read_dir(&prefix).expect("the folder").count(), 0);
    }
}
