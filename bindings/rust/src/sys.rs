//! The functions as they are exported. Each that can refuse takes the numbers of a field and of a profile first, generation and constraints
//! that of a tuple rule third, powers and inverses the field's alone; an unknown number is refusal 1, before anything else is read. It gives
//! the number of a refusal (docs/SPECIFICATION.md), 0 where nothing is refused, and writes three details; what else is lent for writing is
//! untouched by refusals 1 to 12, but the rooms of the functions on bytes, which are working memory. It takes any words and lengths: it tests
//! them itself, and reads and writes the lent slices alone.

/// The declaration of an exported function: `[name: type]` is a slice, which is lent as a pointer and a length.
macro_rules! export {
    ($name:ident($($arguments:tt)*)) => { export!(@ $name () $($arguments)*); };
    (@ $name:ident ($($done:tt)*) [$slice:ident: $type:ty], $($rest:tt)*) => {
        export!(@ $name ($($done)* $slice: *const $type, _: usize,) $($rest)*);
    };
    (@ $name:ident ($($done:tt)*) [$slice:ident: mut $type:ty], $($rest:tt)*) => {
        export!(@ $name ($($done)* $slice: *mut $type, _: usize,) $($rest)*);
    };
    (@ $name:ident ($($done:tt)*) $argument:ident: $type:ty, $($rest:tt)*) => {
        export!(@ $name ($($done)* $argument: $type,) $($rest)*);
    };
    (@ $name:ident ($($done:tt)*)) => {
        unsafe extern "C" {
            pub fn $name($($done)*) -> u32;
        }
    };
}

export!(delmatik_generate(
    field: u32, profile: u32, rule: u32,
    main_width: usize, height: usize, pre_width: usize, pre_height: usize, [main: u32], [preprocessed: u32], [public_values: u32],
    [nodes: u32], [lookups: u32], [names: u8], [tuples: u32], [multiplicities: u32], [flags: u32], [elements: u32], [challenges: u32],
    [trace: mut u32], terminal: *mut [u32; 5], details: *mut [u64; 3],
));
export!(delmatik_constraints(
    field: u32, profile: u32, rule: u32,
    main_width: usize, height: usize, pre_width: usize, pre_height: usize, [main: u32], [preprocessed: u32], [public_values: u32],
    [nodes: u32], [lookups: u32], [names: u8], [tuples: u32], [multiplicities: u32], [flags: u32], [elements: u32], [challenges: u32],
    trace_width: usize, [trace: u32], terminal_present: u32, t0: u32, t1: u32, t2: u32, t3: u32, details: *mut [u64; 3],
));
export!(delmatik_degree(
    field: u32, profile: u32,
    main_width: usize, pre_width: usize, public_values: usize, [nodes: u32], [lookups: u32], [names: u8], [tuples: u32],
    [multiplicities: u32], [flags: u32], [elements: u32], lookup: usize, transition: u32, degree: *mut u64, details: *mut [u64; 3],
));
export!(delmatik_pack(
    field: u32, profile: u32,
    limit: u64, main_width: usize, pre_width: usize, public_values: usize, [nodes: u32], [lookups: u32], [names: u8], [tuples: u32],
    [multiplicities: u32], [flags: u32], [elements: u32], [lookups_out: mut u32], [names_out: mut u8], [tuples_out: mut u32],
    [multiplicities_out: mut u32], [flags_out: mut u32], [elements_out: mut u32], used: *mut [u64; 6], details: *mut [u64; 3],
));
export!(delmatik_build(
    field: u32, profile: u32,
    main_width: usize, pre_width: usize, public_values: usize, [nodes: u32], locals: usize, globals: usize, exclusives: usize,
    [interactions: u32], [weights: u32], [names: u8], [tuples: u32], [multiplicities: u32], [flags: u32], [elements: u32],
    [lookups_out: mut u32], used: *mut u64, details: *mut [u64; 3],
));
export!(delmatik_count_from_i32(
    field: u32, profile: u32, [nodes: mut u32], used: usize, x: i32, count: *mut [u32; 2], details: *mut [u64; 3],
));
export!(delmatik_count_negated(
    field: u32, profile: u32, [nodes: mut u32], used: usize, node: u32, weight: u32, count: *mut [u32; 2], details: *mut [u64; 3],
));
export!(delmatik_widths(
    field: u32, profile: u32, [lookups: u32], [names: u8], [tuples: u32], [sizes: u32], widest: *mut u64, details: *mut [u64; 3],
));
export!(delmatik_height_bound(field: u32, profile: u32, [lookups: u32], [counts: u32], [heights: u32], details: *mut [u64; 3],));
export!(delmatik_terminals(field: u32, profile: u32, [terminals: u32], details: *mut [u64; 3],));
export!(delmatik_prefixes(
    field: u32, profile: u32, [alpha: u32], [beta: u32], width: usize, count: usize, [out: mut u32], details: *mut [u64; 3],
));
export!(delmatik_balance(
    field: u32, profile: u32,
    [main: u32], [preprocessed: u32], [public_values: u32], [nodes: u32], [lookups: u32], [names: u8], [tuples: u32],
    [multiplicities: u32], [flags: u32], [elements: u32], [sizes: u32], seed: u64, [workspace: mut u32], details: *mut [u64; 3],
));
// The same on bytes: four for each word, the least byte first, and two rooms, into which the lists are decoded: those that are read into `room`.
export!(delmatik_generate_bytes(
    field: u32, profile: u32, rule: u32,
    main_width: usize, height: usize, pre_width: usize, pre_height: usize, [main: u8], [preprocessed: u8], [public_values: u8], [nodes: u8],
    [lookups: u8], [names: u8], [tuples: u8], [multiplicities: u8], [flags: u8], [elements: u8], [challenges: u8], [trace: mut u8],
    [room: mut u32], [trace_room: mut u32], terminal: *mut [u32; 5], details: *mut [u64; 3],
));
export!(delmatik_pack_bytes(
    field: u32, profile: u32,
    limit: u64, main_width: usize, pre_width: usize, public_values: usize, [nodes: u8], [lookups: u8], [names: u8], [tuples: u8],
    [multiplicities: u8], [flags: u8], [elements: u8], [lookups_out: mut u8], [names_out: mut u8], [tuples_out: mut u8],
    [multiplicities_out: mut u8], [flags_out: mut u8], [elements_out: mut u8], [room: mut u32], [out_room: mut u32],
    used: *mut [u64; 6], details: *mut [u64; 3],
));
export!(delmatik_balance_bytes(
    field: u32, profile: u32,
    [main: u8], [preprocessed: u8], [public_values: u8], [nodes: u8], [lookups: u8], [names: u8], [tuples: u8], [multiplicities: u8],
    [flags: u8], [elements: u8], [sizes: u8], seed: u64, [workspace: mut u8], [room: mut u32],
    [workspace_room: mut u32], details: *mut [u64; 3],
));
export!(delmatik_power(field: u32, [a: u32], n: u32, [out: mut u32],));
export!(delmatik_inverse(field: u32, [a: u32], [out: mut u32],));

// These refuse nothing, and return nothing.
unsafe extern "C" {
    pub fn delmatik_count_bounded(node: u32, weight: u32, count: *mut [u32; 2]);
    pub fn delmatik_count_provided(node: u32, count: *mut [u32; 2]);
    pub fn delmatik_row(trace: *const u32, _: usize, lookups: usize, height: usize, row: u64, part: *mut [u64; 2]);
}
