//! An object as a file, and back: the file has the kept logs, so that the object that is loaded can still be rolled back.
//!
//!     cargo run --example checkpoint [FILE]

use dymelor::{Chunk, LogKind, Object, Time, Version};
use std::{env, error, fs};

fn main() -> Result<(), Box<dyn error::Error>> {
    let file = env::args_os()
        .nth(1)
        .map_or_else(|| env::temp_dir().join("dymelor-checkpoint"), Into::into);
    let mut object = Object::open(4, Version::Two)?;
    let count = object.make(0u64)?;
    for time in 1..=10 {
        *object.get_mut(count)? += time; // touched first, then written
        object.log(LogKind::Incremental, Time(time))?;
    }
    fs::write(&file, object.save("count")?)?;
    let number = count.handle().number(); // a handle is kept as a number, and an address isn't: the loaded object has others

    let mut loaded = Object::load(&fs::read(&file)?)?;
    let count: Chunk<u64> = Chunk::of(dymelor::Handle::from_number(number).ok_or("no handle")?);
    assert_eq!(loaded.get(count)?, &55);
    assert_eq!(loaded.restore_before(Time(10))?, Time(9));
    assert_eq!(loaded.get(count)?, &45);
    fs::remove_file(&file)?;
    println!("{loaded:?}");
    Ok(())
}
