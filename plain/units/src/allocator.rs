//! An allocator that refuses requests for memory as tests order it, each thread by itself: by sizes that no request has but
//! by intent, which `tests/refused/grants.h` names, and by the functions of `tests/memory`.

use rattle::test::ORDER;
use std::alloc::{GlobalAlloc, Layout, System};
use std::cell::Cell;
use std::ptr;

/// From here on every request is refused, or again none.
const REFUSE_ALL: usize = 0x5245_4655_5345;

/// A round of a test ends, which says nothing here.
const END_ROUND: usize = 0x5245_4655_5346;

/// With n added, the nth request from here on is refused; alone, it asks whether one was.
const REFUSE_NTH: usize = 0x5245_4655_5345_0000;

/// With n added, the nth request from here on and each after it is refused.
const REFUSE_FROM: usize = 0x5245_4655_5346_0000;

/// The most that is added.
const MOST: usize = 0xffff;

/// What a thread has ordered.
#[derive(Clone, Copy)]
struct Orders {
    requests: usize,
    /// Those that the test has refused, by their numbers.
    first: usize,
    last: usize,
    all: bool,
    /// The one that the test is run again without.
    again: usize,
    was_refused: bool,
    was_again: bool,
}

thread_local! {
    static ORDERS: Cell<Orders> = const {
        Cell::new(Orders { requests: 0, first: 0, last: 0, all: false, again: 0, was_refused: false, was_again: false })
    };
}

impl Orders {
    fn refuse(&mut self, first: usize, last: usize) {
        (self.first, self.last, self.was_refused) = (first, last, false);
    }

    /// Begins the test once more, with its nth request refused, or with none.
    fn begin(&mut self, nth: usize) {
        self.refuse(0, 0);
        self.all = false;
        self.again = if nth == 0 { 0 } else { self.requests + nth };
        self.was_again = self.was_again && nth == 0;
    }

    /// Whether a request of a size is granted.
    fn grants(&mut self, size: usize) -> bool {
        let nth = |order: usize| size.checked_sub(order).filter(|nth| *nth <= MOST);
        if size == REFUSE_ALL {
            self.all = !self.all;
        } else if let Some(nth) = nth(ORDER) {
            self.begin(nth);
            return nth == 0 && self.was_again;
        } else if size == REFUSE_NTH {
            self.first = 0;
            return self.was_refused;
        } else if let Some(nth) = nth(REFUSE_NTH) {
            self.refuse(self.requests + nth, self.requests + nth);
        } else if let Some(nth) = nth(REFUSE_FROM) {
            self.refuse(self.requests + nth, usize::MAX);
        } else if size != END_ROUND {
            return !self.is_refused();
        }
        false
    }

    fn is_refused(&mut self) -> bool {
        self.requests += 1;
        let is_again = self.requests == self.again;
        let by_test = self.first != 0 && (self.first..=self.last).contains(&self.requests);
        let is_refused = self.all || by_test || is_again;
        self.was_again |= is_again;
        self.was_refused |= is_refused;
        is_refused
    }
}

fn with_orders<T>(change: impl FnOnce(&mut Orders) -> T) -> T {
    let mut orders = ORDERS.get();
    let answer = change(&mut orders);
    ORDERS.set(orders);
    answer
}

struct Ordered;

#[global_allocator]
static ALLOCATOR: Ordered = Ordered;

// SAFETY: each request is the system's, or is refused. Nobody touches the memory of an answer, of which one byte is given.
unsafe impl GlobalAlloc for Ordered {
    unsafe fn alloc(&self, layout: Layout) -> *mut u8 {
        if !with_orders(|orders| orders.grants(layout.size())) {
            return ptr::null_mut();
        }
        let size = if layout.size() >= REFUSE_ALL { 1 } else { layout.size() };
        // SAFETY: the alignment is that of a layout, and the size is no greater than its.
        unsafe { System.alloc(Layout::from_size_align_unchecked(size, layout.align())) }
    }

    unsafe fn dealloc(&self, at: *mut u8, layout: Layout) {
        // SAFETY: it is the system's, which takes no account of the size.
        unsafe { System.dealloc(at, layout) }
    }

    unsafe fn realloc(&self, at: *mut u8, layout: Layout, size: usize) -> *mut u8 {
        match with_orders(|orders| orders.grants(size)) {
            // SAFETY: the caller keeps what the system asks for.
            true => unsafe { System.realloc(at, layout, size) },
            false => ptr::null_mut(),
        }
    }
}

#[unsafe(no_mangle)]
extern "C" fn refuse_requests(first: usize, last: usize) {
    // A test that has each of its requests refused itself isn't run again for that.
    with_orders(|orders| {
        (orders.requests, orders.again) = (0, 0);
        orders.refuse(first, last);
    });
}

#[unsafe(no_mangle)]
extern "C" fn count_requests() -> usize {
    with_orders(|orders| {
        orders.refuse(0, 0);
        orders.requests
    })
}

#[unsafe(no_mangle)]
extern "C" fn are_alike(left: &[u8], right: &[u8]) -> i32 {
    i32::from(left == right)
}
