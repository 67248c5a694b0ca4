//! Two processes on one pool. One is killed in the midst of its work; the other recovers it, and reads its table.
use lojarnek::{join, Error, MapFile, Sizes};
use std::process::Command;
use std::time::Duration;

/// Identity 1 puts the numbers 0, 1, 2 .. at its keys until it is killed.
fn child(path: &str) -> Result<(), Error> {
    let pool = MapFile::attach(path)?;
    let mut me = join(&pool, 1)?;
    for n in 0.. {
        me.put(n as u32 % 16, n)?;
    }
    Ok(())
}

fn main() -> Result<(), Error> {
    let words: Vec<String> = std::env::args().collect();
    let path = words.get(1).map_or("/dev/shm/two.pool", |path| path);
    if words.len() > 2 {
        return child(path);
    }
    let pool = MapFile::open(path, Sizes { format: 1, clients: 2, segments: 4 })?;
    let mut other = Command::new(&words[0]).args([path, "child"]).spawn().expect("a second process");
    let mut me = join(&pool, 0)?;
    while me.get(1, 15)?.is_none() {
        std::thread::sleep(Duration::from_millis(1));
    }
    other.kill().expect("SIGKILL");
    other.wait().expect("its end");
    println!("killed; recovered: {}", pool.rescue());
    assert!((0..16).all(|key| me.get(1, key).is_ok_and(|n| n.is_some_and(|n| n % 16 == u64::from(key)))));
    println!("its 16 keys are there");
    println!("identity 0 once more: {}", join(&pool, 0).err().expect("a refusal"));
    println!("a send to oneself: {}", me.send(0, 1).unwrap_err());
    me.leave().ok();
    Ok(())
}
