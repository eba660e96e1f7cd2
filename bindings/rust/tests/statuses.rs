//! Each error, met once where it can be. [`Error::Memory`] has a test of its own, and [`Error::Spent`] would take 2^60 commands.

use dymelor::{Error, Found, Handle, LogKind, Logs, Object, Time, Version};

fn opened() -> Object {
    Object::open(2, Version::Two).expect("memory for two segments")
}

#[test]
fn a_length_that_no_class_has_is_too_large() {
    let mut object = opened();
    assert_eq!(object.malloc(65_537), Err(Error::TooLarge));
    assert_eq!(object.calloc(1 << 40, 1 << 40), Err(Error::TooLarge));
}

#[test]
fn a_third_segment_is_above_a_quota_of_two() {
    let mut object = opened();
    assert!(object.malloc(65_536).is_ok() && object.malloc(65_536).is_ok());
    assert_eq!(object.malloc(1), Err(Error::Quota));
}

#[test]
fn a_freed_chunk_is_dead() -> Result<(), Error> {
    let mut object = opened();
    let chunk = object.malloc(40)?;
    object.free(Some(chunk))?;
    object.free(None)?;
    assert_eq!(object.free(Some(chunk)), Err(Error::Dead));
    assert_eq!(object.size(chunk), Err(Error::Dead));
    Ok(())
}

#[test]
fn bytes_behind_the_end_are_out_of_range() -> Result<(), Error> {
    let mut object = opened();
    let chunk = object.malloc(40)?;
    assert_eq!(object.write(chunk, 39, &[1, 2]), Err(Error::Range));
    assert_eq!(object.fill(chunk, u32::MAX, u32::MAX, 1), Err(Error::Range));
    assert_eq!(object.read(chunk, 41, &mut []), Err(Error::Range));
    assert_eq!(object.read(chunk, 40, &mut []), Ok(()));
    assert_eq!(object.sum(chunk), Ok(0));
    Ok(())
}

#[test]
fn a_log_comes_after_the_newest_one() -> Result<(), Error> {
    let mut object = opened();
    object.log(LogKind::Full, Time(7))?;
    assert_eq!(object.log(LogKind::Full, Time(7)), Err(Error::NotAfter));
    assert_eq!(object.log(LogKind::Full, Time(6)), Err(Error::NotAfter));
    Ok(())
}

#[test]
fn no_more_than_256_logs_are_kept() -> Result<(), Error> {
    let mut object = opened();
    for time in 0..256 {
        object.log(LogKind::Incremental, Time(time))?;
    }
    assert_eq!(object.log(LogKind::Full, Time(256)), Err(Error::LogsFull));
    assert_eq!(object.prune(Time(250)), Ok(250));
    let logs = Logs {
        kept: 6,
        records: 32,
    };
    assert_eq!(object.logs(), Ok(logs));
    Ok(())
}

#[test]
fn nothing_is_restored_before_the_oldest_log() -> Result<(), Error> {
    let mut object = opened();
    assert_eq!(object.restore(Time(u64::MAX)), Err(Error::NoLog));
    object.log(LogKind::Full, Time(7))?;
    assert_eq!(object.restore(Time(6)), Err(Error::NoLog));
    assert_eq!(object.restore(Time(u64::MAX)), Ok(Time(7)));
    Ok(())
}

#[test]
fn quotas_and_names_can_be_bad() {
    for quota in [0, 1_025, u32::MAX] {
        assert_eq!(Object::open(quota, Version::One).err(), Some(Error::Bad));
    }
    let object = opened();
    for name in ["", "object", "a-b", "ä", &"x".repeat(33)] {
        assert_eq!(object.save(name), Err(Error::Bad));
    }
    assert!(object.save(&"x".repeat(32)).is_ok());
}

#[test]
fn a_file_fails_at_its_first_bad_part() -> Result<(), Error> {
    let mut object = opened();
    object.malloc(40)?;
    for time in 0..2 {
        object.log(LogKind::Full, Time(time))?;
    }
    let file = object.save("lp")?;
    let part_of = |bytes: &[u8]| Object::load(bytes).err();
    assert_eq!(part_of(b""), Some(Error::File { part: 0 }));
    assert_eq!(part_of(&file[..30]), Some(Error::File { part: 1 }));
    assert_eq!(
        part_of(&file[..file.len() - 1]),
        Some(Error::File { part: 2 })
    );
    assert_eq!(
        part_of(&[&file[..], b"."].concat()),
        Some(Error::File { part: 3 })
    );
    assert_eq!(Object::load(&file)?.save("lp")?, file);
    Ok(())
}

#[test]
fn a_link_is_nil_live_or_loose() -> Result<(), Error> {
    let mut object = opened();
    let (from, to) = (object.malloc(40)?, object.malloc(100)?);
    assert_eq!(object.follow(from, 0), Ok(Found::Nil));
    object.link(from, 0, Some(to))?;
    assert_eq!(object.follow(from, 0), Ok(Found::Live(to)));
    object.free(Some(to))?;
    assert_eq!(object.follow(from, 0), Ok(Found::Loose(to.number())));
    object.link(from, 0, None)?;
    assert_eq!(object.follow(from, 0), Ok(Found::Nil));
    Ok(())
}

#[test]
fn a_handle_has_the_exponent_of_a_class() {
    assert_eq!(Handle::new(4, 0), None);
    assert_eq!(Handle::new(17, 0), None);
    let handle = Handle::new(6, 3).expect("64 bytes are a class");
    assert_eq!(handle.to_string(), "64:3");
    assert_eq!(handle.number(), 6 << 32 | 3);
    assert_eq!(Handle::from_number(handle.number()), Some(handle));
    assert_eq!(Handle::from_number(0), None);
    assert_eq!(Handle::from_number(1 << 40 | 6 << 32), None);
}

#[test]
fn an_error_says_what_was_refused() {
    let error: Box<dyn std::error::Error> = Box::new(Error::File { part: 2 });
    assert_eq!(
        error.to_string(),
        "the bytes are no checkpoint file: part 2 fails"
    );
    assert_eq!(Error::Dead.to_string(), "no chunk with this handle is live");
    assert_eq!(
        Error::NoLog.to_string(),
        "no log is at such a time or place"
    );
    assert_eq!(
        Error::Bad.to_string(),
        "the quota, the name or the number of the process is bad"
    );
}
