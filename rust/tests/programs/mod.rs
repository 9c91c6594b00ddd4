use std::io::Write;
use std::path::{Path, PathBuf};
use std::process::{Command, Stdio};
use std::sync::Mutex;

/// The repository.
pub fn root() -> PathBuf {
    PathBuf::from(env!("CARGO_MANIFEST_DIR")).join("..")
}

/// A program, proved and built.
pub fn program(name: &str) -> PathBuf {
    // tests run beside each other, and rt has one folder to build in
    static ALONE: Mutex<()> = Mutex::new(());
    let _alone = ALONE.lock().unwrap();
    let folder = root().join("crates").join(name);
    // what is built is run too, here for its usage
    let status = Command::new("rt").args(["run", "--", "--help"]).current_dir(&folder).stdin(Stdio::null()).stdout(Stdio::null()).status();
    assert!(status.unwrap().success(), "rt run in crates/{name}");
    folder.join("out").join(name)
}

/// What a program writes.
pub fn output(program: &Path, args: &[String], input: &[u8]) -> Vec<u8> {
    let mut run = Command::new(program).args(args).stdin(Stdio::piped()).stdout(Stdio::piped()).spawn().unwrap();
    let mut stdin = run.stdin.take().unwrap();
    // the program reads all that it wants before it writes; of a longer input it may leave something
    let _ = stdin.write_all(input);
    drop(stdin);
    let output = run.wait_with_output().unwrap();
    assert!(output.status.success(), "{args:?}");
    output.stdout
}
