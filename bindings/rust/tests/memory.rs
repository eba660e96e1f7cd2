//! What is answered where memory runs out. The test runs itself in a process that may have little of it.
#![cfg(unix)]

use dymelor::{Error, LogKind, Object, Time, Version};
use std::env;
use std::process::Command;

/// The variable that is set in the process with little memory.
const INNER: &str = "DYMELOR_TEST_OF_LITTLE_MEMORY";

/// The kilobytes of addresses that the process may have.
const ROOM: u32 = 600_000;

/// The segments of each object, for which 48 MiB of addresses are reserved.
const QUOTA: u32 = 64;

#[test]
fn want_of_memory_is_an_error() -> Result<(), Error> {
    if env::var_os(INNER).is_some() {
        return run_out_of_memory();
    }
    let program = env::current_exe().expect("a test knows its program");
    let output = Command::new("sh")
        .args([
            "-c",
            &format!("ulimit -v {ROOM} && exec \"$0\" --nocapture"),
        ])
        .arg(program)
        .env(INNER, "1")
        .output()
        .expect("there is a shell");
    let text = String::from_utf8_lossy(&output.stdout);
    assert!(
        output.status.success(),
        "{text}{}",
        String::from_utf8_lossy(&output.stderr)
    );
    assert!(text.contains("memory ran out"), "{text}");
    Ok(())
}

/// Opens objects until there is no memory for one more. Once two are closed, another can be opened and logged.
fn run_out_of_memory() -> Result<(), Error> {
    let mut objects = Vec::new();
    let error = loop {
        match Object::open(QUOTA, Version::Two) {
            Ok(object) => objects.push(object),
            Err(error) => break error,
        }
        assert!(objects.len() < 1_000, "memory for a thousand objects");
    };
    println!("{error}");
    assert_eq!(error, Error::Memory);
    assert!(objects.len() > 2);
    objects.truncate(objects.len() - 2);
    let mut object = Object::open(QUOTA, Version::Two)?;
    let chunk = object.malloc(100)?;
    object.log(LogKind::Full, Time(1))?;
    assert_eq!(object.size(chunk), Ok(100));
    Ok(())
}
