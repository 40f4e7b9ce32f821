//! The command `archive`, run as it is built: files are packed, listed and unpacked, and what fails
//! leaves nothing behind.

use std::ffi::OsStr;
use std::fs;
use std::path::{Path, PathBuf};
use std::process::{Command, Output};

/// An empty folder of a test's own.
fn folder(test: &str) -> PathBuf {
    let folder = Path::new(env!("CARGO_TARGET_TMPDIR")).join(format!("archive-{test}"));
    if folder.exists() {
        fs::remove_dir_all(&folder).expect("an earlier run's files can be removed");
    }
    fs::create_dir_all(&folder).expect("the folder can be created");
    folder
}

/// Runs the command in a folder.
fn archive<A: AsRef<OsStr>>(folder: &Path, arguments: &[A]) -> Output {
    Command::new(env!("CARGO_BIN_EXE_archive"))
        .current_dir(folder)
        .args(arguments)
        .output()
        .expect("the command can be run")
}

/// It must be done, with this on standard output and nothing else told.
fn assert_done<A: AsRef<OsStr>>(folder: &Path, arguments: &[A], printed: &str) {
    let output = archive(folder, arguments);
    let told = String::from_utf8_lossy(&output.stderr);
    assert_eq!(output.status.code(), Some(0), "{told}");
    assert_eq!(told, "");
    assert_eq!(String::from_utf8_lossy(&output.stdout), printed);
}

/// It must fail with this exit code, tell so much in words, and change no file of the folder.
fn assert_fails<A: AsRef<OsStr>>(folder: &Path, arguments: &[A], code: i32, words: &[&str]) {
    let before = files_in(folder);
    let output = archive(folder, arguments);
    let told = String::from_utf8_lossy(&output.stderr);
    assert_eq!(output.status.code(), Some(code), "{told}");
    assert_eq!(output.stdout, b"");
    for word in words {
        assert!(told.contains(word), "\"{word}\" is not in \"{told}\"");
    }
    assert!(files_in(folder) == before, "a file was changed: {told}");
}

/// All files and folders in a folder, by their paths; a folder has no bytes.
fn files_in(folder: &Path) -> Vec<(PathBuf, Option<Vec<u8>>)> {
    let mut files = Vec::new();
    for entry in fs::read_dir(folder).expect("a folder") {
        let path = entry.expect("an entry").path();
        if path.is_dir() {
            files.extend(files_in(&path));
            files.push((path, None));
        } else {
            let bytes = fs::read(&path).expect("a file");
            files.push((path, Some(bytes)));
        }
    }
    files.sort();
    files
}

fn write(folder: &Path, name: &str, bytes: &[u8]) {
    fs::write(folder.join(name), bytes).expect("the file can be written");
}

#[test]
fn files_are_packed_listed_and_unpacked() {
    let folder = folder("round-trip");
    let all: Vec<u8> = (0..=255).collect();
    let long = all.repeat(300);
    let files: [(&str, &[u8]); 5] = [
        ("text", b"the first record\n"),
        ("nothing", b""),
        ("all bytes", &all),
        ("long", &long),
        ("REEL", b"REEL"),
    ];
    for (name, bytes) in files {
        write(&folder, name, bytes);
    }
    // The order is that of the arguments, and a file may come twice.
    let order = [3, 1, 0, 4, 2, 1, 0];
    let names = order.map(|i: usize| files[i].0);
    let arguments = [&["pack", "packed"][..], &names].concat();
    assert_done(&folder, &arguments, "");

    let listed = "\
0000        0    76800
0001    76800        0
0002    76800       17
0003    76817        4
0004    76821      256
0005    77077        0
0006    77077       17
";
    assert_done(&folder, &["list", "packed"], listed);
    let packed = fs::read(folder.join("packed")).expect("it is packed");
    assert_eq!(packed.len(), 77_077 + 17 + 7 * 8 + 12);
    assert!(packed.ends_with(&[0x52, 0x45, 0x45, 0x4C]));

    assert_done(&folder, &["unpack", "packed", "new/folder"], "");
    let unpacked = files_in(&folder.join("new/folder"));
    assert_eq!(unpacked.len(), 7);
    for (r, (i, (path, bytes))) in order.into_iter().zip(unpacked).enumerate() {
        assert_eq!(path, folder.join(format!("new/folder/record-{r:04}")));
        assert_eq!(bytes.as_deref(), Some(files[i].1));
    }
}

/// A folder that is there takes the records, and what it holds besides stays.
#[test]
fn a_folder_that_is_there_is_unpacked_to() {
    let folder = folder("there");
    write(&folder, "a", b"aba");
    assert_done(&folder, &["pack", "packed", "a"], "");
    assert_done(&folder, &["unpack", "packed", "."], "");
    let files = files_in(&folder);
    let names: Vec<_> = files
        .iter()
        .filter_map(|(path, _)| path.file_name())
        .collect();
    assert_eq!(names, ["a", "packed", "record-0000"]);
    assert_eq!(files[0].1, files[2].1);
}

#[test]
fn an_archive_of_no_record() {
    let folder = folder("none");
    assert_done(&folder, &["pack", "packed"], "");
    let packed = fs::read(folder.join("packed")).expect("it is packed");
    assert_eq!(packed, b"\0\0\0\0\0\0\0\0REEL");
    assert_done(&folder, &["list", "packed"], "");
    assert_done(&folder, &["unpack", "packed", "out"], "");
    assert_eq!(files_in(&folder.join("out")), []);
}

#[test]
fn other_arguments_are_bad_usage() {
    let folder = folder("usage");
    write(&folder, "packed", b"\0\0\0\0\0\0\0\0REEL");
    let usage = &["usage: archive pack ARCHIVE FILE.."];
    for arguments in [
        &[][..],
        &["pack"],
        &["unpack"],
        &["unpack", "packed"],
        &["unpack", "packed", "out", "more"],
        &["list"],
        &["list", "packed", "packed"],
        &["other", "packed"],
        &["--help"],
        &[""],
    ] {
        assert_fails(&folder, arguments, 2, usage);
    }
}

#[test]
fn nothing_that_exists_is_overwritten() {
    let folder = folder("exists");
    write(&folder, "a", b"aba");
    write(&folder, "b", b"");
    let words = &["archive: b: exists, and is not overwritten"];
    assert_fails(&folder, &["pack", "b", "a"], 1, words);

    assert_done(&folder, &["pack", "packed", "a", "b", "a"], "");
    fs::create_dir(folder.join("out")).expect("the folder can be created");
    // The last one is there: so the first two are not written, either.
    write(&folder, "out/record-0002", b"mine");
    let words = &["record-0002: exists, and is not overwritten"];
    assert_fails(&folder, &["unpack", "packed", "out"], 1, words);

    // A file where the folder is to be, and a folder where a record is to be.
    assert_fails(&folder, &["unpack", "packed", "a"], 1, &["archive: a"]);
    fs::remove_file(folder.join("out/record-0002")).expect("it is there");
    fs::create_dir(folder.join("out/record-0001")).expect("the folder can be created");
    let words = &["record-0001: exists, and is not overwritten"];
    assert_fails(&folder, &["unpack", "packed", "out"], 1, words);
}

/// A link that leads nowhere is not written through.
#[cfg(unix)]
#[test]
fn a_link_is_not_followed() {
    let folder = folder("link");
    write(&folder, "a", b"aba");
    assert_done(&folder, &["pack", "packed", "a"], "");
    fs::create_dir(folder.join("out")).expect("the folder can be created");
    std::os::unix::fs::symlink("nowhere", folder.join("out/record-0000"))
        .expect("the link can be made");
    for arguments in [
        &["unpack", "packed", "out"][..],
        &["pack", "out/record-0000", "a"],
    ] {
        let output = archive(&folder, arguments);
        assert_eq!(output.status.code(), Some(1));
        let told = String::from_utf8_lossy(&output.stderr);
        assert!(told.contains("exists, and is not overwritten"), "{told}");
        assert!(!folder.join("out/nowhere").exists());
    }
    // The gate refuses a link below the checkout.
    fs::remove_dir_all(&folder).expect("the link can be removed");
}

#[test]
fn files_that_are_not_there_are_told() {
    let folder = folder("missing");
    write(&folder, "a", b"aba");
    let gone = &["archive: gone: "];
    assert_fails(&folder, &["pack", "packed", "a", "gone"], 1, gone);
    assert_fails(&folder, &["list", "gone"], 1, gone);
    assert_fails(&folder, &["unpack", "gone", "out"], 1, gone);
    // A folder is no file.
    assert_fails(&folder, &["pack", "packed", "."], 1, &["archive: .: "]);
    let words = &["archive: no/packed: "];
    assert_fails(&folder, &["pack", "no/packed", "a"], 1, words);
}

/// The refusal's number and its words.
#[test]
fn what_is_no_archive_is_refused() {
    let folder = folder("refused");
    write(&folder, "long", &vec![0; 16_777_217]);
    write(&folder, "empty", b"");
    write(&folder, "closing", b"\0\0\0\0\0\0\0\0REEl");
    write(&folder, "directory", b"\0\0\0\0\x01\0\0\0REEL");
    write(&folder, "records", b"a\x01\0\0\0\0\0\0\0REEL");
    for (name, words) in [
        (
            "long",
            "refusal 5: the text or the archive has too many bytes",
        ),
        (
            "empty",
            "refusal 7: the archive does not end with a trailer",
        ),
        (
            "closing",
            "refusal 7: the archive does not end with a trailer",
        ),
        (
            "directory",
            "refusal 8: the archive has too many records, or its directory",
        ),
        ("records", "refusal 9: the archive's records do not touch"),
    ] {
        let words = [&format!("archive: {name}: {words}")[..]];
        assert_fails(&folder, &["list", name], 1, &words);
        assert_fails(&folder, &["unpack", name, "out"], 1, &words);
    }
}

/// 4,096 files are packed and one more is not, and so with the longest archive and a byte more.
#[test]
fn the_limits_of_packing() {
    let folder = folder("limits");
    write(&folder, "a", b"a");
    let arguments = [&["pack", "packed"][..], &["a"; 4_096]].concat();
    assert_done(&folder, &arguments, "");
    assert_done(&folder, &["unpack", "packed", "out"], "");
    let unpacked = files_in(&folder.join("out"));
    assert_eq!(unpacked.len(), 4_096);
    assert_eq!(unpacked[4_095].0, folder.join("out/record-4095"));
    assert!(unpacked
        .iter()
        .all(|(_, bytes)| bytes.as_deref() == Some(b"a")));
    fs::remove_dir_all(folder.join("out")).expect("it is there");

    let arguments = [&["pack", "more"][..], &["a"; 4_097]].concat();
    let words = &["archive: more: there are too many records"];
    assert_fails(&folder, &arguments, 1, words);

    // Two records: the bytes of a, and 16 and 12 bytes besides those of both.
    write(&folder, "just", &vec![7; 16_777_216 - 1 - 16 - 12]);
    write(&folder, "one more", &vec![7; 16_777_216 - 16 - 12]);
    assert_done(&folder, &["pack", "longest", "a", "just"], "");
    let listed = "0000        0        1\n0001        1 16777187\n";
    assert_done(&folder, &["list", "longest"], listed);
    let words = &["archive: longer: the archive would have too many bytes"];
    let arguments = ["pack", "longer", "a", "one more"];
    assert_fails(&folder, &arguments, 1, words);
    let arguments = ["pack", "longer", "just", "just", "a"];
    assert_fails(&folder, &arguments, 1, words);
    fs::remove_dir_all(folder).expect("it is there");
}
