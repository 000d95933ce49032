//! The mark of a diagram as one would write it in Rust without a proof: one sweep from below (which nodes can still reach the
//! end 1?), one from above (which nodes, and so which values of which options, does a fitting build pass?), no bounds checked.
//! The library's `mark` is timed beside it.

#[repr(C)]
#[derive(Clone, Copy)]
pub struct Row {
    option: u32,
    low: u32,
    high: u32,
}

const MOST_NODES: usize = 2050;
const MOST_OPTIONS: usize = 128;

struct Found {
    reached: [bool; MOST_NODES],
    zero: [bool; MOST_OPTIONS],
    one: [bool; MOST_OPTIONS],
}

/// The option of a node; an end stands after all options.
unsafe fn option_of(rows: &[Row], width: usize, node: usize) -> usize {
    if node < 2 { width } else { unsafe { rows.get_unchecked(node - 2).option as usize } }
}

unsafe fn live_nodes(rows: &[Row], values: &[u8], live: &mut [bool; MOST_NODES]) {
    live[1] = true;
    for (r, row) in rows.iter().enumerate() {
        unsafe {
            let value = *values.get_unchecked(row.option as usize);
            let low = value != 1 && *live.get_unchecked(row.low as usize);
            let high = value != 0 && *live.get_unchecked(row.high as usize);
            *live.get_unchecked_mut(r + 2) = low | high;
        }
    }
}

impl Found {
    /// An arrow that a fitting build takes reaches its node, and the options that it jumps over are free.
    unsafe fn follow(&mut self, rows: &[Row], values: &[u8], from: usize, node: usize) {
        unsafe {
            *self.reached.get_unchecked_mut(node) = true;
            for option in from..option_of(rows, values.len(), node) {
                let value = *values.get_unchecked(option);
                *self.zero.get_unchecked_mut(option) |= value != 1;
                *self.one.get_unchecked_mut(option) |= value != 0;
            }
        }
    }

    unsafe fn descend(&mut self, rows: &[Row], values: &[u8], live: &[bool; MOST_NODES]) {
        for (r, row) in rows.iter().enumerate().rev() {
            unsafe {
                if !*self.reached.get_unchecked(r + 2) {
                    continue;
                }
                let option = row.option as usize;
                let value = *values.get_unchecked(option);
                if value != 1 && *live.get_unchecked(row.low as usize) {
                    *self.zero.get_unchecked_mut(option) = true;
                    self.follow(rows, values, option + 1, row.low as usize);
                }
                if value != 0 && *live.get_unchecked(row.high as usize) {
                    *self.one.get_unchecked_mut(option) = true;
                    self.follow(rows, values, option + 1, row.high as usize);
                }
            }
        }
    }
}

/// Marks a rule, whose root is the node, under the values. Says whether it is live; where it is dead no mark is written.
///
/// # Safety
/// At most 2,048 lawful rows; a root that is one of their nodes or an end; at most 128 values, each 0, 1 or 2, and as many marks.
#[unsafe(no_mangle)]
pub unsafe extern "C" fn unchecked_mark(
    rows: *const Row,
    row_count: usize,
    root: u32,
    values: *const u8,
    marks: *mut u8,
    width: usize,
) -> bool {
    unsafe {
        let rows = std::slice::from_raw_parts(rows, row_count);
        let values = std::slice::from_raw_parts(values, width);
        let marks = std::slice::from_raw_parts_mut(marks, width);
        let mut live = [false; MOST_NODES];
        live_nodes(rows, values, &mut live);
        if !*live.get_unchecked(root as usize) {
            return false;
        }
        let mut found = Found {
            reached: [false; MOST_NODES],
            zero: [false; MOST_OPTIONS],
            one: [false; MOST_OPTIONS],
        };
        found.follow(rows, values, 0, root as usize);
        found.descend(rows, values, &live);
        for (option, mark) in marks.iter_mut().enumerate() {
            *mark = match (*found.zero.get_unchecked(option), *found.one.get_unchecked(option)) {
                (true, false) => 0,
                (false, true) => 1,
                _ => 2,
            };
        }
        true
    }
}
