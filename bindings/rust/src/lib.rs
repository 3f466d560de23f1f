//! Lithe for Rust: harts lent among parallel libraries that call each other.
//!
//! A hart is a hardware thread; a program has one thread of its own for each. A site is a place at which harts are lent.
//! One hart, its home, registers the site below the site that it is in, its owner, and requests more harts. Harts that are
//! in the parent may then enter the site as guests, and yield. The home closes the site, waits until it is empty, and
//! unregisters it. Site 0 is the base.
//!
//! The calls are those of the static library `liblithe.a`. Each tests its own condition, and its step is proved there. This
//! crate is not proved: it adds that each hart is in one call at a time (`&mut self`) and ends once (`Drop`).
//!
//! ```text
//! let mut harts = lithe::board(2, 1)?;
//! let mut guest = harts.pop().unwrap();
//! let mut home = harts.pop().unwrap();
//! let site = home.register()?;
//! home.request(1)?;
//! guest.enter(site)?;
//! home.close()?;
//! assert_eq!(home.unregister(), Err(lithe::Status::NotEmpty));
//! guest.yield_hart()?;
//! home.unregister()?;
//! ```
//!
//! With the feature `runtime` the crate also has fork-join, loops and scopes ready to use, over `liblithe_rt.a`.
#![warn(missing_docs)]

use std::cell::Cell;
use std::fmt;
use std::marker::PhantomData;
use std::mem::ManuallyDrop;
use std::ptr;

#[cfg(feature = "runtime")]
mod runtime;
#[cfg(feature = "runtime")]
pub use runtime::*;

/// The number of a site: 1 to harts times levels. 0 is the base.
pub type Site = u16;

/// Why a call was refused. The call then made no entry: owner, homes and wishes are as they were.
#[derive(Clone, Copy, Debug, PartialEq, Eq, Hash)]
#[non_exhaustive]
#[repr(u32)]
pub enum Status {
    /// The hart isn't the home of the site that it is in.
    NotHome = 1,
    /// The hart isn't a guest of the site that it is in.
    NotGuest = 2,
    /// The site's wishes and guests would be more than the other harts of the board.
    TooManyWished = 3,
    /// The site is closed.
    IsClosed = 4,
    /// The site isn't closed.
    NotClosed = 5,
    /// The site has a guest.
    NotEmpty = 6,
    /// The number isn't 1 to harts times levels.
    NoSuchSite = 7,
    /// The hart is the home of as many sites as the board has levels.
    TooDeep = 8,
    /// The site isn't live, is closed, wants no hart, or isn't a child of the hart's owner.
    NotWanted = 9,
    /// Another hart changed the site's word during the call.
    Moved = 10,
    /// The allocator returned null.
    NoMemory = 11,
    /// A board has 1 to 64 harts and 1 to 64 levels.
    BadSize = 12,
    /// A hart is in a site: it isn't at the base.
    InSite = 13,
    /// The site has fewer wishes that no hart has met.
    TooFewWishes = 15,
    /// The library returned a number that this crate doesn't know.
    Unknown = u32::MAX,
}

const ALL: [Status; 14] = [
    Status::NotHome,
    Status::NotGuest,
    Status::TooManyWished,
    Status::IsClosed,
    Status::NotClosed,
    Status::NotEmpty,
    Status::NoSuchSite,
    Status::TooDeep,
    Status::NotWanted,
    Status::Moved,
    Status::NoMemory,
    Status::BadSize,
    Status::InSite,
    Status::TooFewWishes,
];

fn outcome(number: u32) -> Result<(), Status> {
    if number == 0 {
        return Ok(());
    }
    let known = ALL.into_iter().find(|status| *status as u32 == number);
    Err(known.unwrap_or(Status::Unknown))
}

impl fmt::Display for Status {
    fn fmt(&self, f: &mut fmt::Formatter<'_>) -> fmt::Result {
        let mut text = [0u8; 80];
        let count = unsafe { lithe_status_text(*self as u32, text.as_mut_ptr(), text.len()) };
        f.write_str(&String::from_utf8_lossy(&text[..count]))
    }
}

impl std::error::Error for Status {}

#[repr(C)]
struct Raw {
    at: *mut u8,
}

extern "C" {
    fn lithe_hart_make(levels: u8, harts: *mut Raw, count: usize) -> u32;
    fn lithe_hart_register(hart: *mut Raw, site: *mut u16) -> u32;
    fn lithe_hart_register_wishing(hart: *mut Raw, count: u8, site: *mut u16) -> u32;
    fn lithe_hart_request(hart: *mut Raw, count: u8) -> u32;
    fn lithe_hart_withdraw(hart: *mut Raw, count: u8) -> u32;
    fn lithe_hart_read_home(hart: *mut Raw, wishes: *mut u8, guests: *mut u8) -> u32;
    fn lithe_hart_read_site(hart: *mut Raw, site: u16, wishes: *mut u8, guests: *mut u8) -> u32;
    fn lithe_hart_enter(hart: *mut Raw, site: u16) -> u32;
    fn lithe_hart_yield(hart: *mut Raw) -> u32;
    fn lithe_hart_yield_last(hart: *mut Raw, last: *mut u8) -> u32;
    fn lithe_hart_close(hart: *mut Raw) -> u32;
    fn lithe_hart_see_empty(hart: *mut Raw) -> u32;
    fn lithe_hart_unregister(hart: *mut Raw) -> u32;
    fn lithe_hart_end_if_empty(hart: *mut Raw) -> u32;
    fn lithe_hart_owner(hart: *mut Raw) -> u16;
    fn lithe_hart_drop(hart: Raw);
    fn lithe_status_text(status: u32, text: *mut u8, room: usize) -> usize;
}

/// The wishes and the guests of a site when a call loaded its word. A site that isn't live has none.
#[derive(Clone, Copy, Debug, PartialEq, Eq, Hash)]
pub struct Counts {
    /// The harts asked for that have not entered.
    pub wishes: u8,
    /// The harts that entered and have not left, with those in sites below.
    pub guests: u8,
}

/// One hart of a board. It may be sent to another thread, and is in one call at a time. It takes a cache line of its own,
/// since each call writes to it.
///
/// A hart that is dropped in a site leaves the site as it is: live for ever if the hart is its home, never empty if it is
/// its guest. [`Hart::end`] refuses that.
#[repr(align(64))]
pub struct Hart {
    raw: ManuallyDrop<Raw>,
    /// Not `Sync`.
    alone: PhantomData<Cell<()>>,
}

// The library's check proves that what a hart owns may go from thread to thread.
unsafe impl Send for Hart {}

/// Makes a board, and returns its harts, each at the base. `levels` is the number of sites that one hart may be the home of
/// at the same time. The board is freed with its last hart.
///
/// # Errors
///
/// [`Status::BadSize`] unless `harts` and `levels` are 1 to 64, [`Status::NoMemory`].
pub fn board(harts: usize, levels: u8) -> Result<Vec<Hart>, Status> {
    if !(1..=64).contains(&harts) {
        return Err(Status::BadSize);
    }
    let mut raw: Vec<Raw> = (0..harts)
        .map(|_| Raw {
            at: ptr::null_mut(),
        })
        .collect();
    outcome(unsafe { lithe_hart_make(levels, raw.as_mut_ptr(), harts) })?;
    let hart = |raw| Hart {
        raw: ManuallyDrop::new(raw),
        alone: PhantomData,
    };
    Ok(raw.into_iter().map(hart).collect())
}

impl Hart {
    fn at(&mut self) -> *mut Raw {
        &mut *self.raw
    }

    /// The site that the hart is in; 0 is the base.
    pub fn owner(&mut self) -> Site {
        unsafe { lithe_hart_owner(self.at()) }
    }

    /// Registers the hart's next site as a child of its owner. The hart is its home, and the site its owner.
    ///
    /// # Errors
    ///
    /// [`Status::TooDeep`] exactly if the hart is the home of as many sites as the board has levels.
    pub fn register(&mut self) -> Result<Site, Status> {
        let mut site = 0;
        outcome(unsafe { lithe_hart_register(self.at(), &mut site) })?;
        Ok(site)
    }

    /// Registers the hart's next site, which begins with `count` wishes, in one step.
    ///
    /// # Errors
    ///
    /// [`Status::TooDeep`], else [`Status::TooManyWished`] exactly if `count` is more than the other harts of the board.
    pub fn register_wishing(&mut self, count: u8) -> Result<Site, Status> {
        let mut site = 0;
        outcome(unsafe { lithe_hart_register_wishing(self.at(), count, &mut site) })?;
        Ok(site)
    }

    /// Takes back `count` wishes of the owner that no hart has met.
    ///
    /// # Errors
    ///
    /// In this order: [`Status::NotHome`], [`Status::TooFewWishes`], [`Status::Moved`].
    pub fn withdraw(&mut self, count: u8) -> Result<(), Status> {
        outcome(unsafe { lithe_hart_withdraw(self.at(), count) })
    }

    /// The wishes and guests of the owner. Until this hart's next entry, other harts can only turn a wish into a guest, or leave.
    ///
    /// # Errors
    ///
    /// [`Status::NotHome`].
    pub fn read_home(&mut self) -> Result<Counts, Status> {
        let (mut wishes, mut guests) = (0, 0);
        outcome(unsafe { lithe_hart_read_home(self.at(), &mut wishes, &mut guests) })?;
        Ok(Counts { wishes, guests })
    }

    /// The wishes and guests of a site, as they were at the load.
    ///
    /// # Errors
    ///
    /// [`Status::NoSuchSite`].
    pub fn read_site(&mut self, site: Site) -> Result<Counts, Status> {
        let (mut wishes, mut guests) = (0, 0);
        outcome(unsafe { lithe_hart_read_site(self.at(), site, &mut wishes, &mut guests) })?;
        Ok(Counts { wishes, guests })
    }

    /// The owner asks for `count` more harts. At any one time a site's wishes and guests are at most the other harts of the board;
    /// once guests have left, it may ask again.
    ///
    /// # Errors
    ///
    /// In this order: [`Status::NotHome`], [`Status::IsClosed`], [`Status::TooManyWished`].
    pub fn request(&mut self, count: u8) -> Result<(), Status> {
        outcome(unsafe { lithe_hart_request(self.at(), count) })
    }

    /// Enters the site as a guest, if it is a live child of the hart's owner that isn't closed and wants a hart.
    ///
    /// # Errors
    ///
    /// [`Status::NoSuchSite`], [`Status::NotWanted`], [`Status::Moved`].
    pub fn enter(&mut self, site: Site) -> Result<(), Status> {
        outcome(unsafe { lithe_hart_enter(self.at(), site) })
    }

    /// Leaves the owner, in which the hart is a guest, for its parent.
    ///
    /// # Errors
    ///
    /// [`Status::NotGuest`].
    pub fn yield_hart(&mut self) -> Result<(), Status> {
        outcome(unsafe { lithe_hart_yield(self.at()) })
    }

    /// Leaves the owner, in which the hart is a guest, for its parent. Returns whether the owner was closed and the hart its only
    /// guest: then its home, hart `(site - 1) / levels`, may be waiting for that. A wake may use no memory of the site.
    ///
    /// # Errors
    ///
    /// [`Status::NotGuest`].
    pub fn yield_last(&mut self) -> Result<bool, Status> {
        let mut last = 0;
        outcome(unsafe { lithe_hart_yield_last(self.at(), &mut last) })?;
        Ok(last == 1)
    }

    /// Closes the owner: no further hart enters it.
    ///
    /// # Errors
    ///
    /// [`Status::NotHome`], else [`Status::IsClosed`].
    pub fn close(&mut self) -> Result<(), Status> {
        outcome(unsafe { lithe_hart_close(self.at()) })
    }

    /// Looks whether the closed owner has no guest. Then no other hart is in it or below it, and none will come.
    ///
    /// # Errors
    ///
    /// In this order: [`Status::NotHome`], [`Status::NotClosed`].
    pub fn see_empty(&mut self) -> Result<bool, Status> {
        match outcome(unsafe { lithe_hart_see_empty(self.at()) }) {
            Ok(()) => Ok(true),
            Err(Status::NotEmpty) => Ok(false),
            Err(status) => Err(status),
        }
    }

    /// Ends the closed owner, which has no guest. Its parent is then the hart's owner.
    ///
    /// # Errors
    ///
    /// In this order: [`Status::NotHome`], [`Status::NotClosed`], [`Status::NotEmpty`].
    pub fn unregister(&mut self) -> Result<(), Status> {
        outcome(unsafe { lithe_hart_unregister(self.at()) })
    }

    /// Closes and ends the owner, if it has no guest, in one step. Its parent is then the hart's owner.
    ///
    /// # Errors
    ///
    /// In this order: [`Status::NotHome`], [`Status::IsClosed`], [`Status::NotEmpty`], [`Status::Moved`]. The site stays open.
    pub fn end_if_empty(&mut self) -> Result<(), Status> {
        outcome(unsafe { lithe_hart_end_if_empty(self.at()) })
    }

    /// Gives up the hart of a parent's board in a forked child, without a step. Its memory stays allocated in the child.
    pub fn forget(self) {
        std::mem::forget(self);
    }

    /// Ends the hart, if it is at the base.
    ///
    /// # Errors
    ///
    /// Gives the hart back with [`Status::InSite`] if it is in a site.
    #[allow(clippy::result_large_err)]
    pub fn end(mut self) -> Result<(), (Hart, Status)> {
        if self.owner() != 0 {
            return Err((self, Status::InSite));
        }
        Ok(())
    }
}

impl Drop for Hart {
    fn drop(&mut self) {
        unsafe { lithe_hart_drop(ManuallyDrop::take(&mut self.raw)) }
    }
}
