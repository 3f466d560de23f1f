use lithe::{board, Counts, Hart, Site, Status};
use std::sync::atomic::{AtomicUsize, Ordering::SeqCst};
use std::thread;

fn is_send<T: Send>() {}

#[test]
fn one_site() {
    is_send::<Hart>();
    let mut harts = board(2, 1).unwrap();
    let mut guest = harts.pop().unwrap();
    let mut home = harts.pop().unwrap();
    assert_eq!(home.request(1), Err(Status::NotHome));
    assert_eq!(guest.enter(3), Err(Status::NoSuchSite));
    assert_eq!(guest.enter(1), Err(Status::NotWanted));
    let site = home.register().unwrap();
    assert_eq!((site, home.owner()), (1, 1));
    assert_eq!(home.register(), Err(Status::TooDeep));
    assert_eq!(home.request(2), Err(Status::TooManyWished));
    home.request(1).unwrap();
    guest.enter(site).unwrap();
    assert_eq!(guest.owner(), site);
    assert_eq!(home.see_empty(), Err(Status::NotClosed));
    home.close().unwrap();
    assert_eq!(home.close(), Err(Status::IsClosed));
    assert_eq!(home.see_empty(), Ok(false));
    assert_eq!(home.unregister(), Err(Status::NotEmpty));
    let (mut guest, status) = guest.end().err().unwrap();
    assert_eq!(status, Status::InSite);
    guest.yield_hart().unwrap();
    assert_eq!(guest.yield_hart(), Err(Status::NotGuest));
    home.unregister().unwrap();
    assert!(home.end().is_ok() && guest.end().is_ok());
}

#[test]
fn one_site_many_rounds() {
    let mut harts = board(4, 1).unwrap();
    let mut home = harts.remove(0);
    let site = home.register().unwrap();
    for _ in 0..1000 {
        home.request(3).unwrap();
        for guest in &mut harts {
            assert_eq!(home.request(1), Err(Status::TooManyWished));
            guest.enter(site).unwrap();
        }
        assert_eq!(home.request(1), Err(Status::TooManyWished));
        for guest in &mut harts {
            guest.yield_hart().unwrap();
        }
    }
    home.close().unwrap();
    home.unregister().unwrap();
}

fn counts(wishes: u8, guests: u8) -> Result<Counts, Status> {
    Ok(Counts { wishes, guests })
}

#[test]
fn begins_with_wishes_and_ends_empty() {
    let mut harts = board(4, 1).unwrap();
    let mut home = harts.remove(0);
    assert_eq!(home.register_wishing(4), Err(Status::TooManyWished));
    assert_eq!(home.end_if_empty(), Err(Status::NotHome));
    assert_eq!(home.read_home(), Err(Status::NotHome));
    for _ in 0..1000 {
        let site = home.register_wishing(3).unwrap();
        assert_eq!(home.register_wishing(0), Err(Status::TooDeep));
        harts[0].enter(site).unwrap();
        assert_eq!(home.read_home(), counts(2, 1));
        assert_eq!(home.withdraw(3), Err(Status::TooFewWishes));
        home.withdraw(1).unwrap();
        harts[1].enter(site).unwrap();
        assert_eq!(harts[2].enter(site), Err(Status::NotWanted));
        assert_eq!(harts[2].read_site(site), counts(0, 2));
        assert_eq!(home.end_if_empty(), Err(Status::NotEmpty));
        assert_eq!(harts[0].yield_last(), Ok(false));
        assert_eq!(harts[1].yield_last(), Ok(false));
        assert_eq!(harts[1].yield_last(), Err(Status::NotGuest));
        home.end_if_empty().unwrap();
        assert_eq!(harts[2].read_site(site), counts(0, 0));
    }
    let site = home.register_wishing(2).unwrap();
    harts[0].enter(site).unwrap();
    harts[1].enter(site).unwrap();
    home.close().unwrap();
    assert_eq!(home.end_if_empty(), Err(Status::IsClosed));
    assert_eq!(harts[1].yield_last(), Ok(false));
    assert_eq!(harts[0].yield_last(), Ok(true));
    home.unregister().unwrap();
    assert_eq!(harts[0].read_site(5), Err(Status::NoSuchSite));
    harts.pop().unwrap().forget();
}

#[test]
fn sizes_and_texts() {
    assert_eq!(board(0, 1).err(), Some(Status::BadSize));
    assert_eq!(board(65, 1).err(), Some(Status::BadSize));
    assert_eq!(board(1, 0).err(), Some(Status::BadSize));
    assert_eq!(board(1, 65).err(), Some(Status::BadSize));
    assert_eq!(board(64, 64).unwrap().len(), 64);
    assert_eq!(Status::NotEmpty.to_string(), "the site has a guest");
}

fn lend(home: &mut Hart, rounds: usize, open: &AtomicUsize, came: &AtomicUsize) {
    for _ in 0..rounds {
        let site = home.register().unwrap();
        home.request(3).unwrap();
        open.store(site.into(), SeqCst);
        while came.load(SeqCst) == 0 {
            thread::yield_now();
        }
        home.close().unwrap();
        while !home.see_empty().unwrap() {
            thread::yield_now();
        }
        came.store(0, SeqCst);
        home.unregister().unwrap();
    }
    open.store(usize::MAX, SeqCst);
}

fn help(hart: &mut Hart, open: &AtomicUsize, came: &AtomicUsize) {
    while open.load(SeqCst) != usize::MAX {
        let site = open.load(SeqCst) as Site;
        if hart.enter(site).is_ok() {
            came.fetch_add(1, SeqCst);
            hart.yield_hart().unwrap();
        }
        thread::yield_now();
    }
}

#[test]
fn harts_on_threads() {
    let mut harts = board(4, 1).unwrap();
    let (open, came) = (AtomicUsize::new(0), AtomicUsize::new(0));
    thread::scope(|scope| {
        let (home, guests) = harts.split_first_mut().unwrap();
        for guest in guests {
            scope.spawn(|| help(guest, &open, &came));
        }
        scope.spawn(|| lend(home, 100, &open, &came));
    });
    assert!(harts.into_iter().all(|hart| hart.end().is_ok()));
}
