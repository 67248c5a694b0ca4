use lojarnek::{attach, join, Attached, Error, InMemory, MapFile, Sizes};

const SIZES: Sizes = Sizes { format: 1, clients: 2, segments: 4 };

fn file(name: &str) -> std::path::PathBuf {
    let path = std::env::temp_dir().join(format!("lojarnek-{}-{name}.pool", std::process::id()));
    let _ = std::fs::remove_file(&path);
    path
}

#[test]
fn sizes() {
    assert_eq!(SIZES.total(), 1 + 42 + 44 + 2065 * 4);
    assert!(InMemory::new(Sizes { segments: 257, ..SIZES }).is_none());
    assert!(InMemory::new(Sizes { segments: 257, format: 2, ..SIZES }).is_some());
}

#[test]
fn threads() {
    let pool = InMemory::new(SIZES).unwrap();
    std::thread::scope(|s| {
        for who in 0..2 {
            let pool = &pool;
            s.spawn(move || {
                let mut me = join(pool, who).unwrap();
                for n in 0..1000u64 {
                    me.put(n as u32 % 16, n).unwrap();
                }
                assert_eq!(join(pool, who).err(), Some(Error::Taken));
                if who == 1 {
                    assert!(me.leave().is_ok()); // identity 0 is dropped: it is dead
                }
            });
        }
    });
    let Ok(Attached::Dead(dead)) = attach(&pool, 0) else { panic!() };
    let Ok(vacant) = dead.recover() else { panic!() };
    let mut me = vacant.join();
    assert_eq!(me.get(0, 7), Ok(Some(999)));
    assert_eq!(me.get(1, 7), me.get(0, 7));
    assert_eq!(me.get(1, 700), Ok(None));
    assert_eq!(me.del(7), Ok(true));
    assert_eq!(me.del(7), Ok(false));
    assert_eq!(me.send(0, 7), Err(Error::OutOfRange));
    assert_eq!(me.get(2, 7), Err(Error::OutOfRange));
    assert_eq!(me.copy(7, 1, 8), me.get(1, 8));
    assert!(me.leave().is_ok());
    assert!(matches!(attach(&pool, 0), Ok(Attached::Vacant(_))));
    assert_eq!(attach(&pool, 2).err(), Some(Error::OutOfRange));
}

#[test]
fn queues() {
    let pool = InMemory::new(SIZES).unwrap();
    let (mut a, mut b) = (join(&pool, 0).unwrap(), join(&pool, 1).unwrap());
    assert_eq!(a.send(1, 1), Ok(false));
    a.put(1, 11).unwrap();
    for _ in 0..8 {
        assert_eq!(a.send(1, 1), Ok(true));
    }
    assert_eq!(a.send(1, 1), Err(Error::QueueFull));
    for key in 0..8 {
        assert_eq!(b.recv(0, key), Ok(Some(11)));
    }
    assert_eq!(b.recv(0, 9), Ok(None));
}

#[test]
fn full() {
    let pool = InMemory::new(Sizes { format: 2, clients: 1, segments: 1 }).unwrap();
    let mut me = join(&pool, 0).unwrap();
    let most = (0..).find(|key| me.put(*key, 1).is_err()).unwrap();
    assert_eq!(me.put(most, 1), Err(Error::Full));
    assert_eq!(me.get(0, most - 1), Ok(Some(1)));
}

#[test]
fn files() {
    let path = file("files");
    assert!(matches!(MapFile::attach(&path), Err(Error::File(_))));
    let pool = MapFile::open(&path, SIZES).unwrap();
    {
        let mut me = join(&pool, 0).unwrap();
        me.put(1, 5).unwrap();
        assert_eq!(join(&pool, 0).err(), Some(Error::Taken));
        let again = MapFile::attach(&path).unwrap();
        assert_eq!(join(&again, 0).err(), Some(Error::Taken));
    }
    assert_eq!(pool.rescue(), 1);
    assert_eq!(join(&pool, 1).unwrap().get(0, 1), Ok(Some(5)));
    assert!(matches!(MapFile::open(&path, Sizes { segments: 5, ..SIZES }), Err(Error::File(_))));
    std::fs::write(&path, b"another file").unwrap();
    assert!(matches!(MapFile::attach(&path), Err(Error::File(_))));
    std::fs::remove_file(&path).unwrap();
}
