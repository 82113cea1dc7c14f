//! The C functions, and how the areas are lent to them.

/// Declares the C functions: the six areas as pointer and length in words, then the call's own
/// arguments. include/kophdaen.h says which areas a call only reads.
macro_rules! declare {
    ($( $name:ident( $($own:ident: $kind:ty),* ); )*) => {
        extern "C" {
            $( pub(crate) fn $name(
                stored: *mut u32, stored_words: usize,
                copies: *mut u32, copies_words: usize,
                received: *mut u32, received_words: usize,
                log: *mut u32, log_words: usize,
                counts: *mut u32, counts_words: usize,
                work: *mut u32, work_words: usize
                $(, $own: $kind)*
            ) -> u64; )*
        }
    };
}

declare! {
    kophdaen_format();
    kophdaen_begin(t: u32, client: u32);
    kophdaen_commit(t: u32);
    kophdaen_abort(t: u32);
    kophdaen_mark(t: u32, mark: u32);
    kophdaen_back(t: u32, mark: u32);
    kophdaen_grant(client: u32, page: u32, right: u32);
    kophdaen_lock_read(t: u32, page: u32);
    kophdaen_lock_write(t: u32, page: u32);
    kophdaen_read(buffer: *mut u32, buffer_words: usize, t: u32, object: u32);
    kophdaen_create(t: u32, object: u32);
    kophdaen_set_word(t: u32, object: u32, field: u32, word: u32);
    kophdaen_flush(image: *const u32, image_words: usize, t: u32, page: u32);
    kophdaen_force();
    kophdaen_store_page(page: u32);
    kophdaen_empty_log();
    kophdaen_start_pass();
    kophdaen_pass_step();
    kophdaen_reopen();
    kophdaen_reopen_step();
    kophdaen_chain(chain: *mut u32, chain_words: usize, object: u32);
    kophdaen_pass_share(share: *mut u32, share_words: usize, commits: u32);

    kophdaen_held_begin(t: u32, client: u32);
    kophdaen_held_commit(t: u32);
    kophdaen_held_abort(t: u32);
    kophdaen_held_mark(t: u32, mark: u32);
    kophdaen_held_back(t: u32, mark: u32);
    kophdaen_held_grant(client: u32, page: u32, right: u32);
    kophdaen_held_lock_read(t: u32, page: u32);
    kophdaen_held_lock_write(t: u32, page: u32);
    kophdaen_held_read(buffer: *mut u32, buffer_words: usize, t: u32, object: u32);
    kophdaen_held_create(t: u32, object: u32);
    kophdaen_held_set_word(t: u32, object: u32, field: u32, word: u32);
    kophdaen_held_flush(image: *const u32, image_words: usize, t: u32, page: u32);
    kophdaen_held_force();
    kophdaen_held_store_page(page: u32);
    kophdaen_held_empty_log();
    kophdaen_held_start_pass();
    kophdaen_held_pass_step();
    kophdaen_held_reopen_step();
    kophdaen_held_chain(chain: *mut u32, chain_words: usize, object: u32);
    kophdaen_held_pass_share(share: *mut u32, share_words: usize, commits: u32);
}

/// Lends the six areas to a C function.
macro_rules! lend {
    ($store:expr, $name:ident $(, $own:expr)*) => {
        // SAFETY: each area is a Vec of its own, borrowed through &mut self, lent as pointer and
        // length; the library keeps no pointer and reads and writes within those lengths. The
        // areas of a held call are a Held's, which are what it requires.
        Answer::from_code(unsafe {
            $name(
                $store.stored.as_mut_ptr(), $store.stored.len(),
                $store.copies.as_mut_ptr(), $store.copies.len(),
                $store.received.as_mut_ptr(), $store.received.len(),
                $store.log.as_mut_ptr(), $store.log.len(),
                $store.counts.as_mut_ptr(), $store.counts.len(),
                $store.work.as_mut_ptr(), $store.work.len()
                $(, $own)*
            )
        })
    };
}
pub(crate) use lend;
