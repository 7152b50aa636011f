//! The program `peer` from standard input to standard output.
//! It answers as `runlist` is to: the list's answer, or the signed number alone and CRLF.

use std::io::Write;
use std::process::{Command, Stdio};

fn output(file: &[u8]) -> Vec<u8> {
    let mut child = Command::new(env!("CARGO_BIN_EXE_peer"))
        .stdin(Stdio::piped())
        .stdout(Stdio::piped())
        .spawn()
        .expect("the program starts");
    let _ = child.stdin.take().expect("its input").write_all(file); // it may stop reading a file that is too long
    let output = child.wait_with_output().expect("the program ends");
    assert!(output.status.success() && output.stderr.is_empty());
    output.stdout
}

#[test]
fn answers_and_refusals() {
    assert_eq!(output(b"ctx,service,a,b,c\nT,tn_task_create,1,5,1\n"), b"n,code,running\r\n1,0,1\r\n");
    assert_eq!(output(b"ctx,service,a,b,c"), b"n,code,running\r\n");
    assert_eq!(output(b""), b"-11\r\n");
    assert_eq!(output(b"ctx,service,a,b,c\n\n"), b"-12\r\n");
}

#[test]
fn long_files() {
    let longest = peer::gen_files::exact(5, 65_536);
    assert!(output(&longest).starts_with(b"n,code,running\r\n1,"));
    assert_eq!(output(&peer::gen_files::exact(5, 65_537)), b"-1\r\n");
    assert_eq!(output(&vec![b'T'; 200_000]), b"-1\r\n");
}
