// The exported functions behind safe ones: a slice goes as its pointer and its length, and the borrow checker sees to the rest that
// the C header asks of a caller. `Variable` and `Value` are laid out as the numbers that they hold.
use crate::{Value, Variable};

mod linked {
    extern "C" {
        pub fn pirozhkan_new(state: *mut u64, words: usize) -> u64;
        pub fn pirozhkan_add_variable(state: *mut u64, words: usize, id: u32, min: i32, max: i32) -> u64;
        pub fn pirozhkan_add_variable_with_values(state: *mut u64, words: usize, id: u32, values: *const i32, count: usize) -> u64;
        pub fn pirozhkan_remove_value(state: *mut u64, words: usize, id: u32, value: i32) -> u64;
        pub fn pirozhkan_assign_variable(state: *mut u64, words: usize, id: u32, value: i32) -> u64;
        pub fn pirozhkan_remove_below(state: *mut u64, words: usize, id: u32, value: i32) -> u64;
        pub fn pirozhkan_remove_above(state: *mut u64, words: usize, id: u32, value: i32) -> u64;
        pub fn pirozhkan_batch(
            state: *mut u64,
            words: usize,
            kinds: *const u32,
            kind_count: usize,
            ids: *const u32,
            id_count: usize,
            values: *const i32,
            value_count: usize,
        ) -> u64;
        pub fn pirozhkan_propagate_alldiff(state: *mut u64, words: usize, list: *const u32, count: usize) -> u64;
        pub fn pirozhkan_ready(state: *const u64, words: usize, list: *const u32, count: usize) -> u64;
        pub fn pirozhkan_mark(state: *mut u64, words: usize) -> u64;
        pub fn pirozhkan_restore(state: *mut u64, words: usize) -> u64;
        pub fn pirozhkan_keep(state: *mut u64, words: usize) -> u64;
        pub fn pirozhkan_domain_size(state: *const u64, words: usize, id: u32) -> u64;
        pub fn pirozhkan_is_assigned(state: *const u64, words: usize, id: u32) -> u64;
        pub fn pirozhkan_is_inconsistent(state: *const u64, words: usize, id: u32) -> u64;
        pub fn pirozhkan_assigned_value(state: *const u64, words: usize, id: u32) -> u64;
        pub fn pirozhkan_get_bounds(state: *const u64, words: usize, id: u32, cells: *mut i32, count: usize) -> u64;
        pub fn pirozhkan_get_domain_values(state: *const u64, words: usize, id: u32, cells: *mut i32, count: usize) -> u64;
        pub fn pirozhkan_variables(state: *const u64, words: usize, cells: *mut u32, count: usize) -> u64;
        pub fn pirozhkan_domains_changed(state: *const u64, words: usize) -> u64;
        pub fn pirozhkan_reset_changed_flag(state: *mut u64, words: usize) -> u64;
        pub fn pirozhkan_wave(sheet: *const u8, bytes: usize, out: *mut u8, room: usize) -> u64;

        pub fn pirozhkan_bit_new(state: *mut u64, words: usize, min: i32, max: i32) -> u64;
        pub fn pirozhkan_bit_new_empty(state: *mut u64, words: usize, min: i32, max: i32) -> u64;
        pub fn pirozhkan_bit_new_from_values(state: *mut u64, words: usize, values: *const i32, count: usize) -> u64;
        pub fn pirozhkan_bit_insert(state: *mut u64, words: usize, value: i32) -> u64;
        pub fn pirozhkan_bit_remove(state: *mut u64, words: usize, value: i32) -> u64;
        pub fn pirozhkan_bit_remove_all(state: *mut u64, words: usize) -> u64;
        pub fn pirozhkan_bit_remove_all_but(state: *mut u64, words: usize, value: i32) -> u64;
        pub fn pirozhkan_bit_remove_below(state: *mut u64, words: usize, value: i32) -> u64;
        pub fn pirozhkan_bit_remove_above(state: *mut u64, words: usize, value: i32) -> u64;
        pub fn pirozhkan_bit_contains(state: *const u64, words: usize, value: i32) -> u64;
        pub fn pirozhkan_bit_size(state: *const u64, words: usize) -> u64;
        pub fn pirozhkan_bit_fixed_value(state: *const u64, words: usize) -> u64;
        pub fn pirozhkan_bit_min(state: *const u64, words: usize) -> u64;
        pub fn pirozhkan_bit_max(state: *const u64, words: usize) -> u64;
        pub fn pirozhkan_bit_values(state: *const u64, words: usize, cells: *mut i32, count: usize) -> u64;
        pub fn pirozhkan_bit_text(state: *const u64, words: usize, text: *mut u8, room: usize) -> u64;
    }
}

pub fn new(words: &mut [u64]) -> u64 {
    unsafe { linked::pirozhkan_new(words.as_mut_ptr(), words.len()) }
}

pub fn add_variable(words: &mut [u64], id: Variable, min: Value, max: Value) -> u64 {
    unsafe { linked::pirozhkan_add_variable(words.as_mut_ptr(), words.len(), id.0, min.0, max.0) }
}

pub fn add_variable_with_values(words: &mut [u64], id: Variable, values: &[Value]) -> u64 {
    unsafe { linked::pirozhkan_add_variable_with_values(words.as_mut_ptr(), words.len(), id.0, values.as_ptr().cast(), values.len()) }
}

pub fn remove_value(words: &mut [u64], id: Variable, value: Value) -> u64 {
    unsafe { linked::pirozhkan_remove_value(words.as_mut_ptr(), words.len(), id.0, value.0) }
}

pub fn assign_variable(words: &mut [u64], id: Variable, value: Value) -> u64 {
    unsafe { linked::pirozhkan_assign_variable(words.as_mut_ptr(), words.len(), id.0, value.0) }
}

pub fn remove_below(words: &mut [u64], id: Variable, value: Value) -> u64 {
    unsafe { linked::pirozhkan_remove_below(words.as_mut_ptr(), words.len(), id.0, value.0) }
}

pub fn remove_above(words: &mut [u64], id: Variable, value: Value) -> u64 {
    unsafe { linked::pirozhkan_remove_above(words.as_mut_ptr(), words.len(), id.0, value.0) }
}

pub fn batch(words: &mut [u64], kinds: &[u32], ids: &[Variable], values: &[Value]) -> u64 {
    unsafe {
        linked::pirozhkan_batch(
            words.as_mut_ptr(),
            words.len(),
            kinds.as_ptr(),
            kinds.len(),
            ids.as_ptr().cast(),
            ids.len(),
            values.as_ptr().cast(),
            values.len(),
        )
    }
}

pub fn propagate_alldiff(words: &mut [u64], list: &[Variable]) -> u64 {
    unsafe { linked::pirozhkan_propagate_alldiff(words.as_mut_ptr(), words.len(), list.as_ptr().cast(), list.len()) }
}

pub fn ready(words: &[u64], list: &[Variable]) -> u64 {
    unsafe { linked::pirozhkan_ready(words.as_ptr(), words.len(), list.as_ptr().cast(), list.len()) }
}

pub fn mark(words: &mut [u64]) -> u64 {
    unsafe { linked::pirozhkan_mark(words.as_mut_ptr(), words.len()) }
}

pub fn restore(words: &mut [u64]) -> u64 {
    unsafe { linked::pirozhkan_restore(words.as_mut_ptr(), words.len()) }
}

pub fn keep(words: &mut [u64]) -> u64 {
    unsafe { linked::pirozhkan_keep(words.as_mut_ptr(), words.len()) }
}

pub fn domain_size(words: &[u64], id: Variable) -> u64 {
    unsafe { linked::pirozhkan_domain_size(words.as_ptr(), words.len(), id.0) }
}

pub fn is_assigned(words: &[u64], id: Variable) -> u64 {
    unsafe { linked::pirozhkan_is_assigned(words.as_ptr(), words.len(), id.0) }
}

pub fn is_inconsistent(words: &[u64], id: Variable) -> u64 {
    unsafe { linked::pirozhkan_is_inconsistent(words.as_ptr(), words.len(), id.0) }
}

pub fn assigned_value(words: &[u64], id: Variable) -> u64 {
    unsafe { linked::pirozhkan_assigned_value(words.as_ptr(), words.len(), id.0) }
}

pub fn get_bounds(words: &[u64], id: Variable, cells: &mut [Value]) -> u64 {
    unsafe { linked::pirozhkan_get_bounds(words.as_ptr(), words.len(), id.0, cells.as_mut_ptr().cast(), cells.len()) }
}

pub fn get_domain_values(words: &[u64], id: Variable, cells: &mut [Value]) -> u64 {
    unsafe { linked::pirozhkan_get_domain_values(words.as_ptr(), words.len(), id.0, cells.as_mut_ptr().cast(), cells.len()) }
}

pub fn variables(words: &[u64], cells: &mut [Variable]) -> u64 {
    unsafe { linked::pirozhkan_variables(words.as_ptr(), words.len(), cells.as_mut_ptr().cast(), cells.len()) }
}

pub fn domains_changed(words: &[u64]) -> u64 {
    unsafe { linked::pirozhkan_domains_changed(words.as_ptr(), words.len()) }
}

pub fn reset_changed_flag(words: &mut [u64]) -> u64 {
    unsafe { linked::pirozhkan_reset_changed_flag(words.as_mut_ptr(), words.len()) }
}

pub fn wave(sheet: &[u8], out: &mut [u8]) -> u64 {
    unsafe { linked::pirozhkan_wave(sheet.as_ptr(), sheet.len(), out.as_mut_ptr(), out.len()) }
}

pub mod bit {
    use super::linked;
    use crate::Value;

    pub fn new(words: &mut [u64], min: Value, max: Value) -> u64 {
        unsafe { linked::pirozhkan_bit_new(words.as_mut_ptr(), words.len(), min.0, max.0) }
    }

    pub fn new_empty(words: &mut [u64], min: Value, max: Value) -> u64 {
        unsafe { linked::pirozhkan_bit_new_empty(words.as_mut_ptr(), words.len(), min.0, max.0) }
    }

    pub fn new_from_values(words: &mut [u64], values: &[Value]) -> u64 {
        unsafe { linked::pirozhkan_bit_new_from_values(words.as_mut_ptr(), words.len(), values.as_ptr().cast(), values.len()) }
    }

    pub fn insert(words: &mut [u64], value: Value) -> u64 {
        unsafe { linked::pirozhkan_bit_insert(words.as_mut_ptr(), words.len(), value.0) }
    }

    pub fn remove(words: &mut [u64], value: Value) -> u64 {
        unsafe { linked::pirozhkan_bit_remove(words.as_mut_ptr(), words.len(), value.0) }
    }

    pub fn remove_all(words: &mut [u64]) -> u64 {
        unsafe { linked::pirozhkan_bit_remove_all(words.as_mut_ptr(), words.len()) }
    }

    pub fn remove_all_but(words: &mut [u64], value: Value) -> u64 {
        unsafe { linked::pirozhkan_bit_remove_all_but(words.as_mut_ptr(), words.len(), value.0) }
    }

    pub fn remove_below(words: &mut [u64], value: Value) -> u64 {
        unsafe { linked::pirozhkan_bit_remove_below(words.as_mut_ptr(), words.len(), value.0) }
    }

    pub fn remove_above(words: &mut [u64], value: Value) -> u64 {
        unsafe { linked::pirozhkan_bit_remove_above(words.as_mut_ptr(), words.len(), value.0) }
    }

    pub fn contains(words: &[u64], value: Value) -> u64 {
        unsafe { linked::pirozhkan_bit_contains(words.as_ptr(), words.len(), value.0) }
    }

    pub fn size(words: &[u64]) -> u64 {
        unsafe { linked::pirozhkan_bit_size(words.as_ptr(), words.len()) }
    }

    pub fn fixed_value(words: &[u64]) -> u64 {
        unsafe { linked::pirozhkan_bit_fixed_value(words.as_ptr(), words.len()) }
    }

    pub fn min(words: &[u64]) -> u64 {
        unsafe { linked::pirozhkan_bit_min(words.as_ptr(), words.len()) }
    }

    pub fn max(words: &[u64]) -> u64 {
        unsafe { linked::pirozhkan_bit_max(words.as_ptr(), words.len()) }
    }

    pub fn values(words: &[u64], cells: &mut [Value]) -> u64 {
        unsafe { linked::pirozhkan_bit_values(words.as_ptr(), words.len(), cells.as_mut_ptr().cast(), cells.len()) }
    }

    pub fn text(words: &[u64], text: &mut [u8]) -> u64 {
        unsafe { linked::pirozhkan_bit_text(words.as_ptr(), words.len(), text.as_mut_ptr(), text.len()) }
    }
}

// The functions on sparse sets are lent three runs each.
pub mod sparse {
    use crate::Value;

    mod linked {
        type In = *const u32;
        type Out = *mut u32;

        extern "C" {
            pub fn pirozhkan_sparse_new(s: Out, sn: usize, i: Out, ni: usize, v: Out, nv: usize, min: i32, max: i32) -> u64;
            pub fn pirozhkan_sparse_new_from_values(s: Out, sn: usize, i: Out, ni: usize, v: Out, nv: usize, values: *const i32, count: usize) -> u64;
            pub fn pirozhkan_sparse_remove(s: Out, sn: usize, i: Out, ni: usize, v: Out, nv: usize, value: i32) -> u64;
            pub fn pirozhkan_sparse_remove_all(s: Out, sn: usize, i: In, ni: usize, v: In, nv: usize) -> u64;
            pub fn pirozhkan_sparse_remove_all_but(s: Out, sn: usize, i: Out, ni: usize, v: Out, nv: usize, value: i32) -> u64;
            pub fn pirozhkan_sparse_remove_below(s: Out, sn: usize, i: Out, ni: usize, v: Out, nv: usize, value: i32) -> u64;
            pub fn pirozhkan_sparse_remove_above(s: Out, sn: usize, i: Out, ni: usize, v: Out, nv: usize, value: i32) -> u64;
            pub fn pirozhkan_sparse_restore_state(s: Out, sn: usize, i: In, ni: usize, v: In, nv: usize, size: u32, min: u32, max: u32) -> u64;
            pub fn pirozhkan_sparse_intersect_with(
                s: Out, sn: usize, i: Out, ni: usize, v: Out, nv: usize,
                t: In, tn: usize, ti: In, tni: usize, tv: In, tnv: usize, scratch: *mut i32, count: usize,
            ) -> u64;
            pub fn pirozhkan_sparse_diff_with(
                s: Out, sn: usize, i: Out, ni: usize, v: Out, nv: usize,
                t: In, tn: usize, ti: In, tni: usize, tv: In, tnv: usize, scratch: *mut i32, count: usize,
            ) -> u64;
            pub fn pirozhkan_sparse_union_with(
                s: Out, sn: usize, i: Out, ni: usize, v: Out, nv: usize,
                t: In, tn: usize, ti: In, tni: usize, tv: In, tnv: usize,
            ) -> u64;
            pub fn pirozhkan_sparse_contains(s: In, sn: usize, i: In, ni: usize, v: In, nv: usize, value: i32) -> u64;
            pub fn pirozhkan_sparse_size(s: In, sn: usize, i: In, ni: usize, v: In, nv: usize) -> u64;
            pub fn pirozhkan_sparse_min(s: In, sn: usize, i: In, ni: usize, v: In, nv: usize) -> u64;
            pub fn pirozhkan_sparse_max(s: In, sn: usize, i: In, ni: usize, v: In, nv: usize) -> u64;
            pub fn pirozhkan_sparse_values(s: In, sn: usize, i: In, ni: usize, v: In, nv: usize, out: *mut i32, count: usize) -> u64;
            pub fn pirozhkan_sparse_text(s: In, sn: usize, i: In, ni: usize, v: In, nv: usize, text: *mut u8, room: usize) -> u64;
            pub fn pirozhkan_sparse_save_state(s: In, sn: usize, i: In, ni: usize, v: In, nv: usize, saved: Out, count: usize) -> u64;
        }
    }

    // A lent set's three runs, to be written and only read, each as a pointer and a length.
    macro_rules! written {
        ($name:ident, $s:expr, $i:expr, $v:expr $(, $more:expr)*) => {
            unsafe { linked::$name($s.as_mut_ptr(), $s.len(), $i.as_mut_ptr(), $i.len(), $v.as_mut_ptr(), $v.len() $(, $more)*) }
        };
    }

    macro_rules! read {
        ($name:ident, $s:expr, $i:expr, $v:expr $(, $more:expr)*) => {
            unsafe { linked::$name($s.as_ptr(), $s.len(), $i.as_ptr(), $i.len(), $v.as_ptr(), $v.len() $(, $more)*) }
        };
    }

    // The state's cells are written, and the orderings only read.
    macro_rules! restated {
        ($name:ident, $s:expr, $i:expr, $v:expr $(, $more:expr)*) => {
            unsafe { linked::$name($s.as_mut_ptr(), $s.len(), $i.as_ptr(), $i.len(), $v.as_ptr(), $v.len() $(, $more)*) }
        };
    }

    pub fn new(s: &mut [u32], i: &mut [u32], v: &mut [u32], min: Value, max: Value) -> u64 {
        written!(pirozhkan_sparse_new, s, i, v, min.0, max.0)
    }

    pub fn new_from_values(s: &mut [u32], i: &mut [u32], v: &mut [u32], values: &[Value]) -> u64 {
        written!(pirozhkan_sparse_new_from_values, s, i, v, values.as_ptr().cast(), values.len())
    }

    pub fn remove(s: &mut [u32], i: &mut [u32], v: &mut [u32], value: Value) -> u64 {
        written!(pirozhkan_sparse_remove, s, i, v, value.0)
    }

    pub fn remove_all(s: &mut [u32], i: &[u32], v: &[u32]) -> u64 {
        restated!(pirozhkan_sparse_remove_all, s, i, v)
    }

    pub fn remove_all_but(s: &mut [u32], i: &mut [u32], v: &mut [u32], value: Value) -> u64 {
        written!(pirozhkan_sparse_remove_all_but, s, i, v, value.0)
    }

    pub fn remove_below(s: &mut [u32], i: &mut [u32], v: &mut [u32], value: Value) -> u64 {
        written!(pirozhkan_sparse_remove_below, s, i, v, value.0)
    }

    pub fn remove_above(s: &mut [u32], i: &mut [u32], v: &mut [u32], value: Value) -> u64 {
        written!(pirozhkan_sparse_remove_above, s, i, v, value.0)
    }

    pub fn restore_state(s: &mut [u32], i: &[u32], v: &[u32], saved: [u32; 3]) -> u64 {
        restated!(pirozhkan_sparse_restore_state, s, i, v, saved[0], saved[1], saved[2])
    }

    // The other set's three runs, and what the values that go are written into.
    pub fn intersect_with(s: &mut [u32], i: &mut [u32], v: &mut [u32], t: [&[u32]; 3], scratch: &mut [Value]) -> u64 {
        let [t, ti, tv] = t;
        written!(
            pirozhkan_sparse_intersect_with, s, i, v, t.as_ptr(), t.len(), ti.as_ptr(), ti.len(), tv.as_ptr(), tv.len(),
            scratch.as_mut_ptr().cast(), scratch.len()
        )
    }

    pub fn diff_with(s: &mut [u32], i: &mut [u32], v: &mut [u32], t: [&[u32]; 3], scratch: &mut [Value]) -> u64 {
        let [t, ti, tv] = t;
        written!(
            pirozhkan_sparse_diff_with, s, i, v, t.as_ptr(), t.len(), ti.as_ptr(), ti.len(), tv.as_ptr(), tv.len(),
            scratch.as_mut_ptr().cast(), scratch.len()
        )
    }

    pub fn union_with(s: &mut [u32], i: &mut [u32], v: &mut [u32], t: [&[u32]; 3]) -> u64 {
        let [t, ti, tv] = t;
        written!(pirozhkan_sparse_union_with, s, i, v, t.as_ptr(), t.len(), ti.as_ptr(), ti.len(), tv.as_ptr(), tv.len())
    }

    pub fn contains(s: &[u32], i: &[u32], v: &[u32], value: Value) -> u64 {
        read!(pirozhkan_sparse_contains, s, i, v, value.0)
    }

    pub fn size(s: &[u32], i: &[u32], v: &[u32]) -> u64 {
        read!(pirozhkan_sparse_size, s, i, v)
    }

    pub fn min(s: &[u32], i: &[u32], v: &[u32]) -> u64 {
        read!(pirozhkan_sparse_min, s, i, v)
    }

    pub fn max(s: &[u32], i: &[u32], v: &[u32]) -> u64 {
        read!(pirozhkan_sparse_max, s, i, v)
    }

    pub fn values(s: &[u32], i: &[u32], v: &[u32], out: &mut [Value]) -> u64 {
        read!(pirozhkan_sparse_values, s, i, v, out.as_mut_ptr().cast(), out.len())
    }

    pub fn text(s: &[u32], i: &[u32], v: &[u32], text: &mut [u8]) -> u64 {
        read!(pirozhkan_sparse_text, s, i, v, text.as_mut_ptr(), text.len())
    }

    pub fn save_state(s: &[u32], i: &[u32], v: &[u32], saved: &mut [u32; 3]) -> u64 {
        read!(pirozhkan_sparse_save_state, s, i, v, saved.as_mut_ptr(), saved.len())
    }
}
