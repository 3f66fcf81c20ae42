//! No call takes memory from the heap.

use std::alloc::{GlobalAlloc, Layout, System};
use std::cell::Cell;

struct Counted;

thread_local! {
    static COUNT: Cell<usize> = const { Cell::new(0) };
}

unsafe impl GlobalAlloc for Counted {
    unsafe fn alloc(&self, layout: Layout) -> *mut u8 {
        COUNT.with(|count| count.set(count.get() + 1));
        System.alloc(layout)
    }

    unsafe fn dealloc(&self, memory: *mut u8, layout: Layout) {
        System.dealloc(memory, layout)
    }
}

#[global_allocator]
static HEAP: Counted = Counted;

fn allocations(run: impl FnOnce()) -> usize {
    let before = COUNT.with(Cell::get);
    run();
    COUNT.with(Cell::get) - before
}

#[test]
fn the_counter_counts() {
    assert!(allocations(|| drop(std::hint::black_box(vec![1u8]))) > 0);
}

#[test]
fn no_call_allocates() {
    let texts = [
        "urn:epc:tag:sgtin-198:0.0614141.812345.a%2Fb",
        "urn:epc:tag:sgcn-96:3.9521141.67890.04711",
        "urn:epc:tag:cpi-96:3.9521141.98765.12345",
        "urn:epc:tag:gid-96:1.2.03",
        "urn:epc:tag:[umi=1][att=xFF]:gid-96:1.2.3",
        "urn:epc:tag:[att=x01][umi=1]:gid-96:1.2.3",
        "",
    ];
    let mut long = [0; 64];
    (long[0], long[2]) = (31 << 3, 0x35);
    let banks = [
        &long[..],
        &[0x30, 0, 0x35, 0, 0, 0, 0, 0, 0, 0, 0, 0, 0, 0],
        &[0x34, 0xFF, 0x3C, 0, 0, 0, 0, 0, 0, 0, 0, 0, 0, 0],
        &[0x30, 0, 0x3F, 0, 0, 0, 0, 0, 0, 0, 0, 0, 0, 10],
        &[8, 0, 1, 1],
        &[],
    ];
    let identities = [
        "urn:epc:id:sgtin:0614141.812345.a%2Fb",
        "urn:epc:id:cpi:9521141.5PQ7%2FZ43.12345",
        "urn:epc:id:gid:1.2.3",
        "urn:epc:id:gid:1.2.03",
    ];
    let (mut bank, mut text) = ([0; 64], [0; 160]);
    let mut answer = Vec::with_capacity(2000);
    let count = allocations(|| {
        for input in texts.map(str::as_bytes) {
            for words in [0, 5, 31, 32] {
                let _ = second::text_to_bank(input, words, &mut bank);
            }
            let _ = second::tag_to_identity(input, &mut text);
            second::reply(input, &mut answer);
            second::identity_reply(input, &mut answer);
        }
        for input in identities.map(str::as_bytes) {
            for filter in [0, 7, 8] {
                let _ = second::identity_to_tag(input, filter, &mut text);
            }
        }
        for input in banks {
            let _ = second::bank_to_text(input, &mut text);
            let _ = second::raw_line(input, &mut text);
        }
    });
    assert_eq!(count, 0);
}
