// The eight calls as include/figures.h declares them, the one declaration in Rust.

/// What came of a call, and its four numbers.
pub type Reply = [u32; 5];

#[link(name = "figures_c", kind = "static")]
extern "C" {
    pub fn figures_distances_from(
        list: *const u32,
        list_len: usize,
        n: u32,
        asker: u32,
        a: u32,
        w: u32,
        source: u32,
        out: *mut u32,
        out_len: usize,
        reply: *mut Reply,
    );
    pub fn figures_distances_to(
        list: *const u32,
        list_len: usize,
        n: u32,
        asker: u32,
        a: u32,
        w: u32,
        target: u32,
        out: *mut u32,
        out_len: usize,
        scratch: *mut u32,
        scratch_len: usize,
        reply: *mut Reply,
    );
    pub fn figures_table(
        list: *const u32,
        list_len: usize,
        n: u32,
        asker: u32,
        a: u32,
        w: u32,
        out: *mut u32,
        out_len: usize,
        reply: *mut Reply,
    );
    pub fn figures_forward_eccentricity(
        list: *const u32,
        list_len: usize,
        n: u32,
        asker: u32,
        a: u32,
        w: u32,
        stop: u32,
        reply: *mut Reply,
    );
    pub fn figures_backward_eccentricity(
        list: *const u32,
        list_len: usize,
        n: u32,
        asker: u32,
        a: u32,
        w: u32,
        stop: u32,
        scratch: *mut u32,
        scratch_len: usize,
        reply: *mut Reply,
    );
    pub fn figures_diameter(
        list: *const u32,
        list_len: usize,
        n: u32,
        asker: u32,
        a: u32,
        w: u32,
        scratch: *mut u32,
        scratch_len: usize,
        reply: *mut Reply,
    );
    pub fn figures_pivot_diameter(
        list: *const u32,
        list_len: usize,
        n: u32,
        asker: u32,
        a: u32,
        w: u32,
        pivots: *const u32,
        pivots_len: usize,
        scratch: *mut u32,
        scratch_len: usize,
        reply: *mut Reply,
    );
    pub fn figures_office_check(list: *const u32, list_len: usize, n: u32, reply: *mut Reply);
}
