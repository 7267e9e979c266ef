//! The program, run on files.

mod common;

use std::fs;
use std::path::PathBuf;
use std::process::Command;

use common::{hashed, hex, keys, signed};

/// A directory of one test, empty at its start.
fn room(name: &str) -> PathBuf {
    let path = PathBuf::from(env!("CARGO_TARGET_TMPDIR")).join(name);
    let _ = fs::remove_dir_all(&path);
    fs::create_dir_all(&path).unwrap();
    path
}

/// Status, standard output, standard error.
fn run(room: &PathBuf, arguments: &[&str]) -> (i32, String, String) {
    let output =
        Command::new(env!("CARGO_BIN_EXE_second")).args(arguments).current_dir(room).output().unwrap();
    (
        output.status.code().unwrap(),
        String::from_utf8(output.stdout).unwrap(),
        String::from_utf8(output.stderr).unwrap(),
    )
}

fn done(text: &str) -> (i32, String, String) {
    (0, text.into(), String::new())
}

#[test]
fn make_sign_check() {
    let room = room("make_sign_check");
    let put = |name: &str, bytes: &[u8]| fs::write(room.join(name), bytes).unwrap();
    let get = |name: &str| fs::read(room.join(name)).unwrap();
    put("zeta", &hashed(b"zeta\0", 32));
    put("zeta'", &hashed(b"zeta'\0", 32));
    put("m", b"");
    assert_eq!(run(&room, &["make-keys", "zeta", "zeta'", "pk", "sk"]), done("0\n"));
    let keys = keys(0);
    assert_eq!((get("pk"), get("sk")), (keys.public.clone(), keys.secret.clone()));
    assert_eq!(run(&room, &["sign", "sk", "m", "1000", "sig"]), done("0 3\n"));
    assert_eq!(get("sig"), signed(&keys, b""));
    assert_eq!(run(&room, &["check", "pk", "sig", "m"]), done("0\n"));

    let (status, out, error) = run(&room, &["sign", "sk", "m", "2", "other"]);
    assert_eq!((status, out.as_str(), error.lines().count()), (1, "8 2\n", 1));
    assert!(!room.join("other").exists());
    put("m", b"x");
    let (status, out, error) = run(&room, &["check", "pk", "sig", "m"]);
    assert_eq!((status, out.as_str(), error.lines().count()), (1, "9\n", 1));
    let (status, out, error) = run(&room, &["make-keys", "zeta", "m", "other", "other"]);
    assert_eq!((status, out.as_str(), error.lines().count()), (1, "1\n", 1));
    assert!(!room.join("other").exists());
}

#[test]
fn shake() {
    let room = room("shake");
    fs::write(room.join("in"), b"abc").unwrap();
    for length in [0, 1, 64, 5000] {
        let expected = hex(&hashed(b"abc", length)) + "\n";
        assert_eq!(run(&room, &["shake", "in", &length.to_string()]), done(&expected));
    }
}

#[test]
fn bad_use() {
    let room = room("bad_use");
    fs::write(room.join("in"), b"abc").unwrap();
    let wrong: [&[&str]; 13] = [
        &[],
        &["unknown"],
        &["help", "me"],
        &["shake", "in"],
        &["shake", "in", "-1"],
        &["shake", "missing", "3"],
        &["sign", "in", "in", "many", "out"],
        &["sign", "in", "in", "99999999999", "out"],
        &["check", "in", "in"],
        &["make-keys", "in", "missing", "pk", "sk"],
        &["vectors"],
        &["replay", "missing"],
        &["replay", "in"],
    ];
    for arguments in wrong {
        let (status, out, error) = run(&room, arguments);
        assert_eq!((status, out.as_str(), error.lines().count()), (2, "", 1), "{arguments:?}");
    }
    let (status, out, _) = run(&room, &["help"]);
    assert!(status == 0 && out.contains("make-keys"));
}
