//! The C functions: those of libiset.a, as include/iset.h declares them, those of libiset_open.a,
//! as include/iset_open.h does, those of libiset_ruled.a, as include/iset_ruled.h does, those of
//! libiset_image.a, as include/iset_image.h does, those of libiset_disjoint.a, as
//! include/iset_disjoint.h does, and those of libiset_narrow.a, as include/iset_narrow.h does.
//! [`Map`](crate::Map), [`Store`](crate::Store), [`image`](crate::image),
//! [`DisjointMap`](crate::DisjointMap), [`DisjointStore`](crate::DisjointStore) and the types of
//! [`narrow`](crate::narrow) call them safely.
//!
//! Each returns 0, or the number of a [`Refusal`](crate::Refusal); only [`iset_slot_after`] returns
//! a slot, [`iset_image_count`] a count and [`iset_image_value`] a value. Treat every number but 0
//! as a refusal. The order of an answer's numbers is given in include/iset.h.
//!
//! A function whose name begins with `iset_narrow_` does what the one without `narrow_` does, on
//! nodes of six words.
//!
//! # Safety
//!
//! For each function here the caller must ensure two things. A pointer refers to at least as many
//! elements as the length after it says, and that of [`iset_slot_after`] to 11 numbers; an array of
//! length 0 may have any pointer. An array that is passed as `*mut` overlaps no other argument, and
//! nothing else uses it during the call. The functions take any numbers and any contents.
#![allow(clippy::too_many_arguments)]

/// Declares functions of the archives.
macro_rules! exports {
    ($($(#[$doc:meta])* fn $name:ident($($arg:ident: $type:ty),* $(,)?);)*) => {
        extern "C" {
            $(
                $(#[$doc])*
                ///
                /// # Safety
                ///
                /// As the [module](self#safety) says.
                pub fn $name($($arg: $type),*) -> u64;
            )*
        }
    };
}

/// Declares calls that have no opened form: each on nodes of eight words and of six, the type of
/// both, and a table for each layout.
macro_rules! alone {
    ($(
        $(#[$doc:meta])*
        $field:ident: $name:ident, $narrow:ident;
        $kind:ident: fn($($arg:ident: $type:ty),* $(,)?);
    )*) => {
        exports! {
            $(
                $(#[$doc])*
                fn $name($($arg: $type),*);
                #[doc = concat!("[`", stringify!($name), "`] on nodes of six words.")]
                fn $narrow($($arg: $type),*);
            )*
        }
        $(pub(crate) type $kind = unsafe extern "C" fn($($type),*) -> u64;)*

        /// The calls of a layout that have no opened form.
        pub(crate) struct Alone {
            $(pub(crate) $field: $kind,)*
        }
        pub(crate) static ALONE: Alone = Alone { $($field: $name,)* };
        pub(crate) static NARROW_ALONE: Alone = Alone { $($field: $narrow,)* };
    };
}

/// Declares public calls and their opened forms: each on nodes of eight words and of six, the type
/// of all four, and tables of them, so that a wrapper is written once and takes a table.
macro_rules! pairs {
    ($(
        $(#[$doc:meta])*
        $field:ident: $name:ident, $opened:ident, $narrow:ident, $narrow_opened:ident;
        $kind:ident: fn($($arg:ident: $type:ty),* $(,)?);
    )*) => {
        exports! {
            $(
                $(#[$doc])*
                fn $name($($arg: $type),*);
                #[doc = concat!("[`", stringify!($name), "`] without the check of the store.")]
                /// The header that declares it says when it may be used.
                fn $opened($($arg: $type),*);
                #[doc = concat!("[`", stringify!($name), "`] on nodes of six words.")]
                fn $narrow($($arg: $type),*);
                #[doc = concat!("[`", stringify!($opened), "`] on nodes of six words.")]
                fn $narrow_opened($($arg: $type),*);
            )*
        }
        $(pub(crate) type $kind = unsafe extern "C" fn($($type),*) -> u64;)*

        /// The calls of one kind, public or opened, of a layout.
        pub(crate) struct Calls {
            $(pub(crate) $field: $kind,)*
        }
        /// They check the store.
        pub(crate) static PUBLIC: Calls = Calls { $($field: $name,)* };
        pub(crate) static NARROW_PUBLIC: Calls = Calls { $($field: $narrow,)* };
        /// They do not.
        pub(crate) static OPENED: Calls = Calls { $($field: $opened,)* };
        pub(crate) static NARROW_OPENED: Calls = Calls { $($field: $narrow_opened,)* };
    };
}

exports! {
    /// Returns the slot after a removal of the entry that had slot `kept` before it. The answer has
    /// the 11 numbers of that removal.
    fn iset_slot_after(answer: *const u64, removed: u64, kept: u64);

    /// Gives the cursor at which an overlap lookup begins. The answer has 3 numbers.
    fn iset_fresh(count: u64, root: u64, answer: *mut u64, answer_len: usize);

    /// Returns how many entries of an image hold an address, 0 if the image is refused.
    fn iset_image_count(image: *const u8, image_len: usize, address: u64);

    /// Returns the value of the k-th of them in tree order, counted from 0, and 0 if refused.
    fn iset_image_value(image: *const u8, image_len: usize, address: u64, k: u64);

    /// Returns the number of `iset_image_value`'s refusal.
    fn iset_image_refusal(image: *const u8, image_len: usize, address: u64, k: u64);
}

alone! {
    /// Checks the store: 0 if it passes.
    check: iset_check, iset_narrow_check;
    Check: fn(
        count: u64, root: u64,
        nodes: *const u64, nodes_len: usize, colours: *const u8, colours_len: usize,
    );

    /// Builds the map of a sorted list of triples, in the place of a map of that version. The
    /// answer has 3 numbers.
    build: iset_build, iset_narrow_build;
    Build: fn(
        version: u32,
        nodes: *mut u64, nodes_len: usize, colours: *mut u8, colours_len: usize,
        list: *const u64, list_len: usize,
        answer: *mut u64, answer_len: usize,
    );

    /// Reads the map of an image, in the place of a map of that version. The answer has 3 numbers.
    read_image: iset_read_image, iset_narrow_read_image;
    ReadImage: fn(
        version: u32,
        nodes: *mut u64, nodes_len: usize, colours: *mut u8, colours_len: usize,
        image: *const u8, image_len: usize,
        answer: *mut u64, answer_len: usize,
    );

    /// Checks the store, and that no two of its entries intersect: 0 if so.
    disjoint_check: iset_disjoint_check, iset_narrow_disjoint_check;
    DisjointCheck: fn(
        count: u64, root: u64,
        nodes: *const u64, nodes_len: usize, colours: *const u8, colours_len: usize,
    );
}

pairs! {
    /// Removes the entry of a slot. The answer has 11 numbers.
    remove: iset_remove, iset_open_remove, iset_narrow_remove, iset_narrow_open_remove;
    Remove: fn(
        count: u64, root: u64, version: u32,
        nodes: *mut u64, nodes_len: usize, colours: *mut u8, colours_len: usize,
        slot: u64,
        answer: *mut u64, answer_len: usize,
    );

    /// Adds one entry. The answer has 5 numbers.
    insert: iset_insert, iset_open_insert, iset_narrow_insert, iset_narrow_open_insert;
    Insert: fn(
        count: u64, root: u64, version: u32,
        nodes: *mut u64, nodes_len: usize, colours: *mut u8, colours_len: usize,
        start: u64, end: u64, value: u64,
        answer: *mut u64, answer_len: usize,
    );

    /// Removes every entry that intersects a range. The answer has 4 numbers.
    unload: iset_unload, iset_open_unload, iset_narrow_unload, iset_narrow_open_unload;
    Unload: fn(
        count: u64, root: u64, version: u32,
        nodes: *mut u64, nodes_len: usize, colours: *mut u8, colours_len: usize,
        lo_kind: u64, lo: u64, hi_kind: u64, hi: u64,
        answer: *mut u64, answer_len: usize,
    );

    /// Removes every entry that intersects a range by a rule. The answer has 4 numbers.
    unload_ruled: iset_unload_ruled, iset_open_unload_ruled,
        iset_narrow_unload_ruled, iset_narrow_open_unload_ruled;
    UnloadRuled: fn(
        count: u64, root: u64, version: u32,
        nodes: *mut u64, nodes_len: usize, colours: *mut u8, colours_len: usize,
        rule: u64, lo_kind: u64, lo: u64, hi_kind: u64, hi: u64,
        answer: *mut u64, answer_len: usize,
    );

    /// Writes a plan that numbers the slots in order. There is no answer.
    propose: iset_propose, iset_open_propose, iset_narrow_propose, iset_narrow_open_propose;
    Propose: fn(
        count: u64, root: u64,
        nodes: *const u64, nodes_len: usize, colours: *const u8, colours_len: usize,
        out: *mut u64, out_len: usize,
    );

    /// Moves each entry to the slot that a plan gives it. The answer has 3 numbers.
    renumber: iset_renumber, iset_open_renumber, iset_narrow_renumber, iset_narrow_open_renumber;
    Renumber: fn(
        count: u64, root: u64, version: u32,
        nodes: *mut u64, nodes_len: usize, colours: *mut u8, colours_len: usize,
        plan: *const u64, plan_len: usize,
        answer: *mut u64, answer_len: usize,
    );

    /// Reads the entry of a slot, if the map still has version `taken`. The answer has 3 numbers.
    read: iset_read, iset_open_read, iset_narrow_read, iset_narrow_open_read;
    Read: fn(
        count: u64, root: u64, version: u32,
        nodes: *const u64, nodes_len: usize, colours: *const u8, colours_len: usize,
        slot: u64, taken: u32,
        answer: *mut u64, answer_len: usize,
    );

    /// Writes a map as an image. The answer has 1 number.
    write_image: iset_write_image, iset_open_write_image,
        iset_narrow_write_image, iset_narrow_open_write_image;
    WriteImage: fn(
        count: u64, root: u64,
        nodes: *const u64, nodes_len: usize, colours: *const u8, colours_len: usize,
        out: *mut u8, out_len: usize, answer: *mut u64, answer_len: usize,
    );

    /// Gives the cursor at which an exact lookup begins. The answer has 3 numbers.
    fresh_exact: iset_fresh_exact, iset_open_fresh_exact,
        iset_narrow_fresh_exact, iset_narrow_open_fresh_exact;
    FreshExact: fn(
        count: u64, root: u64,
        nodes: *const u64, nodes_len: usize, colours: *const u8, colours_len: usize,
        start: u64, end: u64,
        answer: *mut u64, answer_len: usize,
    );

    /// Finds the next entry after a cursor that intersects a range. The answer has 5 numbers.
    step: iset_step, iset_open_step, iset_narrow_step, iset_narrow_open_step;
    Step: fn(
        count: u64, root: u64,
        nodes: *const u64, nodes_len: usize, colours: *const u8, colours_len: usize,
        lo_kind: u64, lo: u64, hi_kind: u64, hi: u64,
        slot: u64, levels: u64, bits: u64,
        answer: *mut u64, answer_len: usize,
    );

    /// Finds the next entry after a cursor that intersects a range by a rule. The answer has 5
    /// numbers.
    step_ruled: iset_step_ruled, iset_open_step_ruled,
        iset_narrow_step_ruled, iset_narrow_open_step_ruled;
    StepRuled: fn(
        count: u64, root: u64,
        nodes: *const u64, nodes_len: usize, colours: *const u8, colours_len: usize,
        rule: u64, lo_kind: u64, lo: u64, hi_kind: u64, hi: u64,
        slot: u64, levels: u64, bits: u64,
        answer: *mut u64, answer_len: usize,
    );

    /// Finds the next entry after a cursor that is equal to an interval. The answer has 5 numbers.
    step_exact: iset_step_exact, iset_open_step_exact,
        iset_narrow_step_exact, iset_narrow_open_step_exact;
    StepExact: fn(
        count: u64, root: u64,
        nodes: *const u64, nodes_len: usize, colours: *const u8, colours_len: usize,
        start: u64, end: u64,
        slot: u64, levels: u64, bits: u64,
        answer: *mut u64, answer_len: usize,
    );

    /// Finds entries that intersect a range, up to a limit. The answer has 5 numbers.
    drain: iset_drain, iset_open_drain, iset_narrow_drain, iset_narrow_open_drain;
    Drain: fn(
        count: u64, root: u64,
        nodes: *const u64, nodes_len: usize, colours: *const u8, colours_len: usize,
        lo_kind: u64, lo: u64, hi_kind: u64, hi: u64,
        slot: u64, levels: u64, bits: u64, limit: u64,
        out: *mut u64, out_len: usize, answer: *mut u64, answer_len: usize,
    );

    /// Finds entries that intersect a range by a rule, up to a limit. The answer has 5 numbers.
    drain_ruled: iset_drain_ruled, iset_open_drain_ruled,
        iset_narrow_drain_ruled, iset_narrow_open_drain_ruled;
    DrainRuled: fn(
        count: u64, root: u64,
        nodes: *const u64, nodes_len: usize, colours: *const u8, colours_len: usize,
        rule: u64, lo_kind: u64, lo: u64, hi_kind: u64, hi: u64,
        slot: u64, levels: u64, bits: u64, limit: u64,
        out: *mut u64, out_len: usize, answer: *mut u64, answer_len: usize,
    );

    /// Finds entries that are equal to an interval, up to a limit. The answer has 5 numbers.
    drain_exact: iset_drain_exact, iset_open_drain_exact,
        iset_narrow_drain_exact, iset_narrow_open_drain_exact;
    DrainExact: fn(
        count: u64, root: u64,
        nodes: *const u64, nodes_len: usize, colours: *const u8, colours_len: usize,
        start: u64, end: u64,
        slot: u64, levels: u64, bits: u64, limit: u64,
        out: *mut u64, out_len: usize, answer: *mut u64, answer_len: usize,
    );

    /// Finds all entries that intersect a range, without pruning. The answer has 2 numbers.
    plain: iset_plain, iset_open_plain, iset_narrow_plain, iset_narrow_open_plain;
    Plain: fn(
        count: u64, root: u64,
        nodes: *const u64, nodes_len: usize, colours: *const u8, colours_len: usize,
        lo_kind: u64, lo: u64, hi_kind: u64, hi: u64,
        out: *mut u64, out_len: usize, answer: *mut u64, answer_len: usize,
    );

    /// Finds all entries that intersect a range by a rule, without pruning. The answer has 2
    /// numbers.
    plain_ruled: iset_plain_ruled, iset_open_plain_ruled,
        iset_narrow_plain_ruled, iset_narrow_open_plain_ruled;
    PlainRuled: fn(
        count: u64, root: u64,
        nodes: *const u64, nodes_len: usize, colours: *const u8, colours_len: usize,
        rule: u64, lo_kind: u64, lo: u64, hi_kind: u64, hi: u64,
        out: *mut u64, out_len: usize, answer: *mut u64, answer_len: usize,
    );

    /// Finds all entries that are equal to an interval, without pruning. The answer has 2 numbers.
    plain_exact: iset_plain_exact, iset_open_plain_exact,
        iset_narrow_plain_exact, iset_narrow_open_plain_exact;
    PlainExact: fn(
        count: u64, root: u64,
        nodes: *const u64, nodes_len: usize, colours: *const u8, colours_len: usize,
        start: u64, end: u64,
        out: *mut u64, out_len: usize, answer: *mut u64, answer_len: usize,
    );

    /// Finds all entries that intersect a range, at once. The answer has 2 numbers.
    find_all: iset_find_all, iset_open_find_all, iset_narrow_find_all, iset_narrow_open_find_all;
    FindAll: fn(
        count: u64, root: u64,
        nodes: *const u64, nodes_len: usize, colours: *const u8, colours_len: usize,
        lo_kind: u64, lo: u64, hi_kind: u64, hi: u64,
        out: *mut u64, out_len: usize, answer: *mut u64, answer_len: usize,
    );

    /// Finds all entries that intersect a range by a rule, at once. The answer has 2 numbers.
    find_all_ruled: iset_find_all_ruled, iset_open_find_all_ruled,
        iset_narrow_find_all_ruled, iset_narrow_open_find_all_ruled;
    FindAllRuled: fn(
        count: u64, root: u64,
        nodes: *const u64, nodes_len: usize, colours: *const u8, colours_len: usize,
        rule: u64, lo_kind: u64, lo: u64, hi_kind: u64, hi: u64,
        out: *mut u64, out_len: usize, answer: *mut u64, answer_len: usize,
    );

    /// Finds all entries that are equal to an interval, at once. The answer has 2 numbers.
    find_all_exact: iset_find_all_exact, iset_open_find_all_exact,
        iset_narrow_find_all_exact, iset_narrow_open_find_all_exact;
    FindAllExact: fn(
        count: u64, root: u64,
        nodes: *const u64, nodes_len: usize, colours: *const u8, colours_len: usize,
        start: u64, end: u64,
        out: *mut u64, out_len: usize, answer: *mut u64, answer_len: usize,
    );

    /// Finds the entry that holds an address. The answer has 2 numbers.
    disjoint_point: iset_disjoint_point, iset_open_disjoint_point,
        iset_narrow_disjoint_point, iset_narrow_open_disjoint_point;
    DisjointPoint: fn(
        count: u64, root: u64,
        nodes: *const u64, nodes_len: usize, colours: *const u8, colours_len: usize,
        address: u64, answer: *mut u64, answer_len: usize,
    );

    /// Adds one entry that intersects none. The answer has 5 numbers. It is written with 13 too.
    disjoint_insert: iset_disjoint_insert, iset_open_disjoint_insert,
        iset_narrow_disjoint_insert, iset_narrow_open_disjoint_insert;
    DisjointInsert: fn(
        count: u64, root: u64, version: u32,
        nodes: *mut u64, nodes_len: usize, colours: *mut u8, colours_len: usize,
        start: u64, end: u64, value: u64,
        answer: *mut u64, answer_len: usize,
    );

    /// Removes the entry of a slot. The answer has 11 numbers.
    disjoint_remove: iset_disjoint_remove, iset_open_disjoint_remove,
        iset_narrow_disjoint_remove, iset_narrow_open_disjoint_remove;
    DisjointRemove: fn(
        count: u64, root: u64, version: u32,
        nodes: *mut u64, nodes_len: usize, colours: *mut u8, colours_len: usize,
        slot: u64,
        answer: *mut u64, answer_len: usize,
    );
}
