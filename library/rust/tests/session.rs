//! Sessions: scripts in pieces, replies one by one, refusals; and the scripts of the repository, if they are there.

use rsp::{run_script, run_script_strict, RspError, ScriptError, Session, Status};
use std::fs;
use std::path::Path;

/// Why a call was refused.
fn why<T>(result: Result<T, RspError>) -> Option<Status> {
    result.err().map(|it| it.status())
}

const LONGEST: usize = 1048576;

#[test]
fn pieces() {
    let mut session = Session::new(&[0; 64]).unwrap();
    assert_eq!(session.feed("st"), Ok(vec![]));
    assert_eq!(session.feed(b"ep\nstep # 2"), Ok(b"step Done pc 004\n".to_vec()));
    assert_eq!(session.feed(""), Ok(vec![]));
    assert_eq!(session.end(), Ok(b"step Done pc 008\n".to_vec()));
    assert_eq!(why(session.end()), Some(Status::Ended));
    assert_eq!(why(session.feed("")), Some(Status::Ended));
    assert_eq!(session.rdram(), Ok(vec![0; 64]));
    assert_eq!(run_script("", None), Ok((vec![], vec![0; 1 << 22])));
}

#[test]
fn one_by_one() {
    let mut session = Session::new(&[0; 64]).unwrap();
    let replies: Vec<_> = session.feed_iter(b"step\n#\nasm 0\nnop\nend\nste").map(Result::unwrap).collect();
    assert_eq!(replies, [&b"step Done pc 004\n"[..], b"", b"", b"", b"ok 1 words\n"]);
    let text = "#".repeat(LONGEST);
    let mut replies = session.feed_iter(text.as_bytes());
    assert_eq!((replies.next().map(why), replies.next()), (Some(Some(Status::TooLong)), None));
}

/// As many lines as a script may have take no more than their replies need.
#[test]
fn many_lines() {
    let mut session = Session::new(&[0; 64]).unwrap();
    let taken: usize = session.feed_iter("\n".repeat(1000).as_bytes()).map(|it| it.unwrap().capacity()).sum();
    assert_eq!(taken, 0);
    let replies: Vec<_> = session.feed_iter("step\n".repeat(100).as_bytes()).map(Result::unwrap).collect();
    assert_eq!(replies.len(), 100);
    assert!(replies.iter().all(|it| it.capacity() < 2 * it.len()));
    assert_eq!(run_script("\n".repeat(LONGEST), Some(&[0; 64])), Ok((vec![], vec![0; 64])));
}

#[test]
fn refusals() {
    for length in [0, 63, 65, 68, (1 << 23) + 8] {
        assert_eq!(why(Session::new(&vec![0; length])), Some(Status::OutOfRange));
    }
    let script = format!("step\n{}", "#".repeat(LONGEST - 5));
    let expected = b"step Done pc 004\nfault 32 LineTooLong\n".to_vec();
    assert_eq!(run_script(&script, Some(&[0; 64])), Ok((expected, vec![0; 64])));
    let mut session = Session::new(&[1; 64]).unwrap();
    assert_eq!(why(session.feed(script + "#")), Some(Status::TooLong));
    assert_eq!((why(session.feed("")), why(session.end())), (Some(Status::TooLong), Some(Status::TooLong)));
    assert_eq!(session.rdram(), Ok(vec![1; 64]));
    assert_eq!(session.end().unwrap_err().to_string(), "end: the script has more than 1048576 bytes");
}

/// The line, its text, the fault and the reply at which a strict run ends.
#[test]
fn strict_scripts() {
    let run = |script: &str| run_script_strict(script, Some(&[0; 64]));
    assert_eq!(run("asm 0\nnop\nend\nstep"), run_script("asm 0\nnop\nend\nstep", Some(&[0; 64])).map_err(ScriptError::Refused));
    let faults = [
        ("step\nbrek 0\nback 9\n", 2, "brek 0", 30, "fault 30 BadCommand"),
        ("step\nback 9", 2, "back 9", 27, "fault 27 ShortHistory"),
        ("step\n\tasm 0 # a block\nnop\n x: foo $1\r\nend\n", 4, "x: foo $1", 11, "fault 11 UnknownName line 2"),
        ("asm 0\nasm 4\nend\n", 2, "asm 4", 11, "fault 11 UnknownName line 1"),
        ("asm 0\nnop\nend\nasm 8\nj x\nend", 5, "j x", 15, "fault 15 LabelMissing line 1"),
        ("step\nasm 0\nnop\n", 4, "", 10, "fault 10 BadLine line 2"),
        ("asm 0", 2, "", 10, "fault 10 BadLine line 1"),
        ("asm 2\n", 1, "asm 2", 31, "fault 31 BadNumber"),
    ];
    for (script, line, text, fault, reply) in faults {
        let expected = ScriptError::Fault { line, text: text.to_string(), fault, reply: reply.to_string() };
        assert_eq!(run(script).err(), Some(expected), "{script}");
    }
    assert_eq!(run("step\nbrek 0").unwrap_err().to_string(), "line 2: fault 30 BadCommand: brek 0");
    assert_eq!(run("asm 0").unwrap_err().to_string(), "line 2: fault 10 BadLine line 1");
    let controls = run("step\n\x1b]0;\u{9b}2J\x07\t'\"\\\u{202e}\u{e9}").unwrap_err().to_string();
    assert_eq!(controls, "line 2: fault 33 NotText: \\u{1b}]0;\\u{9b}2J\\u{7}\t'\"\\\\u{202e}\u{e9}");
    assert_eq!(run(&"x".repeat(100)).unwrap_err().to_string(), format!("line 1: fault 30 BadCommand: {}", "x".repeat(80)));
    assert!(matches!(run_script_strict("", Some(&[0; 3])), Err(ScriptError::Refused(it)) if it.status() == Status::OutOfRange));
    assert!(matches!(run("#".repeat(LONGEST + 1).as_str()), Err(ScriptError::Refused(it)) if it.status() == Status::TooLong));
}

/// The image that a file NAME.rdram describes: its length, and whether its bytes count up.
fn image_of(path: &Path) -> Option<Vec<u8>> {
    let text = fs::read_to_string(path).ok()?;
    let length = text.split_whitespace().next()?.parse().ok()?;
    let is_counting = text.contains("count");
    Some((0..length).map(|n: usize| if is_counting { n as u8 } else { 0 }).collect())
}

/// RSP_SCRIPTS names a folder with folders of scripts, each with its replies beside it; without it there is nothing to do.
#[test]
fn stored_scripts() {
    let folder = match std::env::var_os("RSP_SCRIPTS") {
        Some(folder) => folder,
        None => return,
    };
    let folders = fs::read_dir(folder).unwrap().map(|it| it.unwrap().path()).filter(|it| it.is_dir());
    let files = folders.flat_map(|it| fs::read_dir(it).unwrap()).map(|it| it.unwrap().path());
    let scripts: Vec<_> = files.filter(|it| it.extension().map_or(false, |end| end == "script")).collect();
    assert!(scripts.len() > 80, "{} scripts", scripts.len());
    for path in scripts {
        if path.with_extension("status").exists() {
            continue;
        }
        let image = image_of(&path.with_extension("rdram"));
        let (replies, _) = run_script(fs::read(&path).unwrap(), image.as_deref()).unwrap();
        assert!(replies == fs::read(path.with_extension("expected")).unwrap(), "{}", path.display());
    }
}
