//! Values of a type in chunks, and several chunks at once.

use dymelor::{library_version, pod, Chunk, Error, Handle, LogKind, Object, Time, Version};

pod! {
    #[derive(Debug, PartialEq)]
    pub struct Point {
        pub x: f64,
        pub y: f64,
    }
}

pod! {
    #[derive(Debug, PartialEq)]
    pub enum Phase {
        Waiting = 3,
        Running,
    }

    #[derive(Debug, PartialEq)]
    pub struct Job {
        pub phase: Phase,
        pub is_late: [bool; 2],
        rest: u8,
        pub number: u32,
    }
}

fn opened() -> Object {
    Object::open(3, Version::Two).expect("memory for three segments")
}

#[test]
fn a_value_is_brought_back() -> Result<(), Error> {
    let mut object = opened();
    let point = object.make(Point { x: 1.0, y: 2.0 })?;
    assert_eq!(object.size(point.handle())?, 16);
    object.log(LogKind::Full, Time(10))?;
    object.get_mut(point)?.x = 5.0;
    object.log(LogKind::Incremental, Time(20))?;
    assert_eq!(object.get(point)?, &Point { x: 5.0, y: 2.0 });
    assert_eq!(object.restore_before(Time(20)), Ok(Time(10)));
    assert_eq!(object.get(point)?, &Point { x: 1.0, y: 2.0 });
    Ok(())
}

#[test]
fn a_value_that_is_too_long_is_out_of_range() -> Result<(), Error> {
    let mut object = opened();
    let short = object.malloc(15)?;
    let point: Chunk<Point> = Chunk::of(short);
    assert_eq!(object.get(point), Err(Error::Range));
    assert_eq!(object.get_mut(point).err(), Some(Error::Range));
    let bytes: Chunk<[u8; 15]> = Chunk::of(short);
    assert_eq!(object.get(bytes)?, &[0; 15]);
    assert_eq!(
        object.pair_mut(bytes, point).err(),
        Some(Error::Range),
        "the second is too long"
    );
    object.free(Some(short))?;
    assert_eq!(object.get(bytes), Err(Error::Dead));
    Ok(())
}

#[test]
fn bytes_that_are_no_value_are_refused() -> Result<(), Error> {
    let mut object = opened();
    let first = Job {
        phase: Phase::Running,
        is_late: [false, true],
        rest: 0,
        number: 7,
    };
    let job = object.make(first)?;
    assert_eq!(object.get(job)?, &first);
    assert_eq!(object.chunk(job.handle())?, &[4, 0, 1, 0, 7, 0, 0, 0]);
    for (at, byte) in [(0, 0), (0, 2), (0, 5), (1, 2), (2, 255)] {
        object.set(job, first)?;
        object.write(job.handle(), at, &[byte])?;
        assert_eq!(object.get(job), Err(Error::NoValue), "{byte} at {at}");
        assert_eq!(object.get_mut(job).err(), Some(Error::NoValue));
    }
    object.log(LogKind::Full, Time(1))?;
    object.set(job, first)?;
    assert_eq!(object.get(job)?, &first);
    object.restore(Time(1))?;
    assert_eq!(object.get(job), Err(Error::NoValue));
    let fresh: Chunk<[Phase; 4]> = Chunk::of(object.malloc(4)?);
    assert_eq!(object.get(fresh), Err(Error::NoValue), "0 is no phase");
    assert_eq!(
        object
            .make([true; 3])
            .and_then(|it| object.get(it).copied()),
        Ok([true; 3])
    );
    Ok(())
}

#[test]
fn equal_heaps_have_one_hash() -> Result<(), Error> {
    let (mut one, mut other) = (opened(), opened());
    assert_eq!(one.hash(), 0xcbf2_9ce4_8422_2325, "of an empty heap");
    for object in [&mut one, &mut other] {
        let chunk = object.make(0x0102_0304_u32)?;
        assert_eq!(
            object.hash(),
            0xd3d2_359a_7c9c_3fd0,
            "FNV-1a of 5 << 32, 4 and the bytes"
        );
        object.log(LogKind::Full, Time(1))?;
        *object.get_mut(chunk)? += 1;
    }
    assert_eq!(one.hash(), other.hash());
    other.restore(Time(1))?;
    assert_ne!(one.hash(), other.hash());
    one.restore(Time(1))?;
    assert_eq!(one.hash(), other.hash());
    other.malloc(0)?;
    assert_ne!(one.hash(), other.hash());
    Ok(())
}

#[test]
fn several_chunks_are_lent_at_once() -> Result<(), Error> {
    let mut object = opened();
    let (a, b, c) = (object.malloc(3)?, object.malloc(4)?, object.malloc(0)?);
    object.log(LogKind::Full, Time(1))?;
    let [first, second, none] = object.chunks_mut([a, b, c])?;
    first.copy_from_slice(&[1, 2, 3]);
    second[3] = 4;
    assert!(none.is_empty());
    object.log(LogKind::Incremental, Time(2))?;
    assert_eq!(object.restore(Time(1)), Ok(Time(1)));
    assert_eq!(
        (object.chunk(a)?, object.chunk(b)?),
        (&[0; 3][..], &[0; 4][..])
    );
    assert_eq!(object.chunks_mut([a, b, a]).err(), Some(Error::Twice));
    object.free(Some(b))?;
    assert_eq!(object.chunks_mut([a, b]).err(), Some(Error::Dead));
    assert_eq!(object.chunks_mut([]).map(|it: [_; 0]| it.len()), Ok(0));
    Ok(())
}

#[test]
fn two_values_of_two_types_are_lent_at_once() -> Result<(), Error> {
    let mut object = opened();
    let (point, count) = (object.make(Point { x: 1.0, y: 2.0 })?, object.make(7u32)?);
    let (p, n) = object.pair_mut(point, count)?;
    *n += 1;
    p.y = f64::from(*n);
    assert_eq!((object.get(point)?.y, *object.get(count)?), (8.0, 8));
    let same: Chunk<u64> = Chunk::of(point.handle());
    assert_eq!(object.pair_mut(point, same).err(), Some(Error::Twice));
    let [a, b] = object.get_many_mut([count, Chunk::of(point.handle())])?;
    std::mem::swap(a, b);
    assert_eq!(*object.get(count)?, 0, "the low half of 1.0");
    Ok(())
}

#[test]
fn logs_have_their_times_and_bounds_before_which_they_go() -> Result<(), Error> {
    let mut object = opened();
    for time in [0, 10, 20] {
        object.log(LogKind::Full, Time(time))?;
    }
    assert_eq!(object.log_time(2), Ok(Time(20)));
    assert_eq!(object.log_time(3), Err(Error::NoLog));
    assert_eq!(object.log_kind(2), Ok(LogKind::Full));
    assert_eq!(object.log_kind(3), Err(Error::NoLog));
    assert_eq!(object.restore_before(Time(0)), Err(Error::NoLog));
    assert_eq!(object.prune_before(Time(0)), Ok(0));
    assert_eq!(object.prune_before(Time(10)), Ok(0));
    assert_eq!(object.prune_before(Time(11)), Ok(1));
    assert_eq!(object.log_time(0), Ok(Time(10)));
    Ok(())
}

#[test]
fn an_object_shows_what_it_holds() -> Result<(), Error> {
    let mut object = opened();
    object.make(1u8)?;
    let chunk = object.make(2u8)?;
    let usage = object.usage();
    assert_eq!((usage.live, usage.kept, usage.idle), (2, 0, 65_534));
    object.log(LogKind::Incremental, Time(1))?;
    assert_eq!(object.changed(), 0);
    *object.get_mut(chunk)? = 3;
    assert_eq!((object.changed(), object.usage().kept), (1, 17));
    let heap = object.inspect();
    assert_eq!((heap.version, heap.quota, heap.held), (Version::Two, 3, 1));
    assert_eq!(
        format!("{object:?}"),
        "Object { version: Two, quota: 3, held: 1, chunks: 2, .. }"
    );
    Ok(())
}

#[test]
fn a_typed_handle_is_its_handle() {
    let handle = Handle::new(5, 7).expect("32 bytes are a class");
    let chunk: Chunk<u64> = Chunk::of(handle);
    assert_eq!(chunk, Chunk::of(handle));
    assert_eq!(chunk.handle(), handle);
    assert!(format!("{chunk:?}").starts_with("Chunk(Handle"));
}

#[test]
fn the_library_is_of_this_version() {
    let (major, minor, _) = library_version();
    assert_eq!(major.to_string(), env!("CARGO_PKG_VERSION_MAJOR"));
    assert_eq!(minor.to_string(), env!("CARGO_PKG_VERSION_MINOR"));
}
