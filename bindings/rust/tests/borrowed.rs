//! Chunks that are borrowed where they lie.

use dymelor::{Error, LogKind, Object, Time, Version};

fn opened() -> Object {
    Object::open(3, Version::Two).expect("memory for three segments")
}

#[test]
fn a_borrowed_chunk_is_what_was_written() -> Result<(), Error> {
    let mut object = opened();
    let chunk = object.malloc(5)?;
    object.write(chunk, 1, &[7, 8])?;
    assert_eq!(object.chunk(chunk), Ok(&[0, 7, 8, 0, 0][..]));
    object.chunk_mut(chunk)?[4] = 9;
    let mut bytes = [0; 5];
    object.read(chunk, 0, &mut bytes)?;
    assert_eq!(bytes, [0, 7, 8, 0, 9]);
    Ok(())
}

#[test]
fn what_changed_in_place_is_in_the_next_log() -> Result<(), Error> {
    let mut object = Object::open(3, Version::One)?;
    let chunk = object.malloc(64)?;
    object.log(LogKind::Full, Time(1))?;
    object.chunk_mut(chunk)?.fill(3);
    object.log(LogKind::Incremental, Time(2))?;
    object.chunk_mut(chunk)?.fill(4);
    object.restore(Time(2))?;
    assert_eq!(object.chunk(chunk)?, [3; 64]);
    object.restore(Time(1))?;
    assert_eq!(object.chunk(chunk)?, [0; 64]);
    Ok(())
}

#[test]
fn a_chunk_stays_where_it_is() -> Result<(), Error> {
    let mut object = opened();
    let (first, second) = (object.malloc(40)?, object.malloc(40)?);
    let address = object.chunk(second)?.as_ptr();
    object.log(LogKind::Full, Time(1))?;
    object.free(Some(first))?;
    object.free(Some(second))?;
    for length in [65_536, 1_000, 20] {
        object.malloc(length)?;
    }
    assert_eq!(object.chunk(second), Err(Error::Dead));
    object.restore(Time(1))?;
    assert_eq!(object.chunk(second)?.as_ptr(), address);
    assert_eq!(object.chunk_mut(second)?.as_ptr(), address);
    Ok(())
}

#[test]
fn a_dead_chunk_is_not_borrowed() -> Result<(), Error> {
    let mut object = opened();
    let chunk = object.malloc(40)?;
    object.free(Some(chunk))?;
    assert_eq!(object.chunk(chunk), Err(Error::Dead));
    assert_eq!(object.chunk_mut(chunk), Err(Error::Dead));
    Ok(())
}

#[test]
fn an_empty_chunk_is_borrowed_as_no_bytes() -> Result<(), Error> {
    let mut object = opened();
    let chunk = object.malloc(0)?;
    object.log(LogKind::Full, Time(1))?;
    assert!(object.chunk(chunk)?.is_empty() && object.chunk_mut(chunk)?.is_empty());
    Ok(())
}
