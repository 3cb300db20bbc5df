//! The exported calls of the proved library, as they are declared in c/mondzafeky.h, and one safe function for each. All of this crate's unsafe
//! code is here.
//!
//! Why each call below is sound: the library asks nothing of lengths, contents or numbers (its contracts have no `requires`), and proves that it
//! reads and writes only inside the slices that it is lent. What is left to the caller is what Rust's types say already: each pointer is not
//! null, aligned, and valid for its length, as a slice's pointer is, and a memory that is written overlaps no other, as each comes from a `&mut`
//! of its own. The pointer of a slice of length 0 points to nothing; nothing is read or written through it. A tally's pointer is that of a `&mut` to
//! it, and it has the form that the library's has: nine numbers in the same order. No pointer is kept after the call.
use crate::{Memories, Tally};

/// What a call answers.
#[repr(C)]
#[derive(Clone, Copy, Debug, PartialEq, Eq)]
pub struct Reply {
    /// 0 accepted, 1 to 6, 8 to 11, 14 and 15 refused, 12 long, 13 full: see [`crate::number`].
    pub number: u32,
    /// How many records were answered. Of a list, `count` times k numbers lie in the tray from its
    /// start; of a count, begun by `begin_count`, `begin_count_within` or these with a tally, the
    /// tray is as it was.
    pub count: u32,
    /// What has ended: see [`crate::ending`].
    pub ending: u32,
}

/// Declares an exported call, and defines the safe function over it.
macro_rules! call {
    ($export:ident, $name:ident $(, mut $lent:ident)? $(, to $tally:ident)? $(, num $n:ident)? $(, read $query:ident)? $(, then $last:ident)*) => {
        extern "C" {
            #[allow(clippy::too_many_arguments)]
            fn $export(
                table: *mut u32, table_len: usize, nodes: *mut u32, nodes_len: usize,
                answers: *mut u32, answers_len: usize, clients: *mut u32, clients_len: usize,
                $($lent: *mut u32, lent_len: usize,)? $($tally: *mut Tally,)? $($n: u32,)? $($query: *const u32, query_len: usize,)? $($last: u32,)*
            ) -> Reply;
        }

        pub(crate) fn $name(
            m: &mut Memories<'_> $(, $lent: &mut [u32])? $(, $tally: &mut Tally)? $(, $n: u32)? $(, $query: &[u32])? $(, $last: u32)*
        ) -> Reply {
            // SAFETY: every pointer and length is that of a slice borrowed until the call returns, each mutable one by a `&mut` of its own, a tally
            // too, so they are valid and do not overlap; the export asks nothing else (see the head of this file).
            unsafe {
                $export(
                    m.table.as_mut_ptr(), m.table.len(), m.nodes.as_mut_ptr(), m.nodes.len(),
                    m.answers.as_mut_ptr(), m.answers.len(), m.clients.as_mut_ptr(), m.clients.len(),
                    $($lent.as_mut_ptr(), $lent.len(),)? $($tally,)? $($n,)? $($query.as_ptr(), $query.len(),)? $($last,)*
                )
            }
        }
    };
}

call!(mondzafeky_open, open, num k);
call!(mondzafeky_begin_read, begin_read, num client, read query);
call!(mondzafeky_begin_count, begin_count, num client, read query);
call!(mondzafeky_begin_read_within, begin_read_within, num client, read query, then column, then lowest, then highest);
call!(mondzafeky_begin_count_within, begin_count_within, num client, read query, then column, then lowest, then highest);
call!(mondzafeky_begin_insert, begin_insert, num client, read query);
call!(mondzafeky_begin_delete, begin_delete, num client, read query);
call!(mondzafeky_step, step, mut tray, num client);
call!(mondzafeky_abandon, abandon, num client);
call!(mondzafeky_evict_answer, evict_answer, num place);
call!(mondzafeky_evict_node, evict_node, num place);
call!(mondzafeky_renew, renew);
call!(mondzafeky_begin_read_tallied, begin_read_tallied, to tally, num client, read query);
call!(mondzafeky_begin_count_tallied, begin_count_tallied, to tally, num client, read query);
call!(mondzafeky_begin_read_within_tallied, begin_read_within_tallied, to tally, num client, read query, then column, then lowest, then highest);
call!(mondzafeky_begin_count_within_tallied, begin_count_within_tallied, to tally, num client, read query, then column, then lowest, then highest);
call!(mondzafeky_begin_insert_tallied, begin_insert_tallied, to tally, num client, read query);
call!(mondzafeky_begin_delete_tallied, begin_delete_tallied, to tally, num client, read query);
call!(mondzafeky_step_tallied, step_tallied, mut tray, to tally, num client);
call!(mondzafeky_abandon_tallied, abandon_tallied, to tally, num client);
