//! `draw_into` allocates nothing.

use perlwynos::{draw, draw_into, Class, Request};
use std::alloc::{GlobalAlloc, Layout, System};
use std::cell::Cell;

thread_local!(static COUNT: Cell<usize> = const { Cell::new(0) });

struct Counting;

// SAFETY: all is left to the system's allocator.
unsafe impl GlobalAlloc for Counting {
    unsafe fn alloc(&self, layout: Layout) -> *mut u8 {
        COUNT.with(|count| count.set(count.get() + 1));
        unsafe { System.alloc(layout) }
    }

    unsafe fn dealloc(&self, pointer: *mut u8, layout: Layout) {
        unsafe { System.dealloc(pointer, layout) }
    }
}

#[global_allocator]
static ALLOCATOR: Counting = Counting;

#[test]
fn lent_slices_only() {
    let (mut line, mut index) = ([0; 4096], [0; 1024]);
    let before = COUNT.with(Cell::get);
    for tokens in [[b"18:1(9Z)" as &[u8], b"255:0;(OH)3"], [b"16:0", b"sixteen"]] {
        let request = Request::new(Class::Gl2, &tokens).swap(true);
        let mut atoms = 0;
        if let Ok(lent) = draw_into(&request, &mut line, &mut index) {
            atoms = lent.carbons().map(|(_, list)| list.len()).sum();
            assert_eq!(lent.sites().count(), 2);
        }
        assert_eq!(atoms, if tokens[1] == b"sixteen" { 0 } else { 273 });
    }
    assert_eq!(COUNT.with(Cell::get), before);
    draw(&Request::new(Class::Fa, &[b"2:0"])).unwrap();
    assert!(COUNT.with(Cell::get) > before);
}
