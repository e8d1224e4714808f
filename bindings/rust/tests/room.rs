//! What `Projection::ring` and `nearest` allocate: room for as many corners or schools as there may be,
//! however many they are given. `Projection::ring_area`, `nearest_into` and `travel_charge` allocate
//! nothing.

use lenthuc::{
    EqualEarth, NEAREST_SCHOOLS, Projection, RING_CORNERS, RING_ROOM, Refusal, WGS84, nearest,
    nearest_into, travel_charge,
};
use std::alloc::{GlobalAlloc, Layout, System};
use std::cell::Cell;

thread_local! {
    static ALLOCATED: Cell<usize> = const { Cell::new(0) };
}

/// The system's allocator, which counts the bytes that a thread asks for.
struct Counting;

fn count(bytes: usize) {
    ALLOCATED.set(ALLOCATED.get() + bytes);
}

// SAFETY: what is asked for and given is the system's. The count allocates nothing.
unsafe impl GlobalAlloc for Counting {
    unsafe fn alloc(&self, layout: Layout) -> *mut u8 {
        count(layout.size());
        // SAFETY: the caller's promise is the one that is asked for.
        unsafe { System.alloc(layout) }
    }

    unsafe fn alloc_zeroed(&self, layout: Layout) -> *mut u8 {
        count(layout.size());
        // SAFETY: as above.
        unsafe { System.alloc_zeroed(layout) }
    }

    unsafe fn realloc(&self, memory: *mut u8, layout: Layout, size: usize) -> *mut u8 {
        count(size);
        // SAFETY: as above.
        unsafe { System.realloc(memory, layout, size) }
    }

    unsafe fn dealloc(&self, memory: *mut u8, layout: Layout) {
        // SAFETY: as above.
        unsafe { System.dealloc(memory, layout) }
    }
}

#[global_allocator]
static ALLOCATOR: Counting = Counting;

/// The bytes that are asked for while a function runs.
fn allocated(function: impl FnOnce()) -> usize {
    let before = ALLOCATED.get();
    function();
    ALLOCATED.get() - before
}

const NUMBER: usize = size_of::<f64>();

fn world() -> EqualEarth {
    EqualEarth::new(WGS84, 0.0, 0.0, 0.0).expect("the world")
}

#[test]
fn of_too_many_corners() {
    let most = 2 * NUMBER * (RING_ROOM * RING_CORNERS + RING_CORNERS + 1);
    let many = vec![(0.1, 0.2); 2_000_000];
    let bytes = allocated(|| assert_eq!(world().ring(&many), Err(Refusal::RingForm)));
    assert!(bytes <= most, "{bytes} of {most}");
}

#[test]
fn of_a_ring() {
    let corners = [(0.1, 0.2), (0.101, 0.2), (0.1, 0.201)];
    let most = 2 * NUMBER * (RING_ROOM + 1) * corners.len();
    let bytes = allocated(|| {
        let ring = world().ring(&corners).expect("a ring");
        assert!(ring.points.capacity() < 2 * ring.points.len());
    });
    assert!(bytes <= most + 1000, "{bytes} of {most}");
}

#[test]
fn of_lent_buffers() {
    let (lon, lat) = (vec![0.1; RING_CORNERS], vec![0.2; RING_CORNERS]);
    let (mut easting, mut northing) = (vec![0.0; RING_CORNERS], vec![0.0; RING_CORNERS]);
    let bytes = allocated(|| {
        let ring = world().ring_area(&lon, &lat, &mut easting, &mut northing);
        assert_eq!(ring.map(|ring| ring.points), Ok(RING_CORNERS));
    });
    assert_eq!(bytes, 0);
}

/// A school's coordinates, and its place in the list.
const SCHOOL: usize = 2 * NUMBER + size_of::<u16>();

#[test]
fn of_too_many_schools() {
    let most = SCHOOL * (NEAREST_SCHOOLS + 1);
    let many = vec![(1.0, 2.0); 2_000_000];
    let rolls = vec![0; 2_000_000];
    let bytes = allocated(|| {
        let answer = nearest((0.0, 0.0), &many, &rolls);
        assert_eq!(answer, Err(Refusal::NearestInput));
    });
    assert!(bytes <= most, "{bytes} of {most}");
}

#[test]
fn of_schools() {
    for count in [1, 10, 100, NEAREST_SCHOOLS] {
        let schools = vec![(1.0, 2.0); count];
        let bytes = allocated(|| {
            let order = nearest((0.0, 0.0), &schools, &[0; NEAREST_SCHOOLS]).expect("an order");
            assert_eq!((order.len(), order.capacity()), (count, count));
        });
        // a vector has room for four at least
        let most = SCHOOL * count.max(4);
        assert!(bytes <= most, "{bytes} of {most}");
    }
}

#[test]
fn of_a_lent_list() {
    let (eastings, northings) = ([1.0; NEAREST_SCHOOLS], [2.0; NEAREST_SCHOOLS]);
    let mut order = [0; NEAREST_SCHOOLS];
    let bytes = allocated(|| {
        let rolls = [7; NEAREST_SCHOOLS];
        let answer = nearest_into((0.0, 0.0), &eastings, &northings, &rolls, &mut order);
        assert_eq!(answer, Ok(()));
    });
    assert_eq!(bytes, 0);
}

#[test]
fn of_a_charge() {
    let bytes = allocated(|| {
        let bill = travel_charge(4800.0, 2000.0, 40, 60).expect("a charge");
        assert_eq!((bill.charge, bill.shares), (240, [4; 60]));
        assert_eq!(travel_charge(0.0, 0.0, 40, 61), Err(Refusal::ChargeInput));
    });
    assert_eq!(bytes, 0);
}
