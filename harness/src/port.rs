//! The port: its exported functions as they are declared in bindings/rust, which the harness calls with any numbers as choices and with words
//! of its own in all that is lent, and the safe wrapper of the same.
use crate::exports::Exports;
use crate::wrapper::Wrapper;

/// What is compared with the model.
#[derive(Clone, Copy)]
pub struct Port<'a> {
    pub exports: &'a dyn Exports,
    pub wrapper: &'a dyn Wrapper,
}

/// The static libraries.
#[cfg(feature = "port")]
pub struct Exported;

#[cfg(feature = "port")]
pub const EXPORTED: Port<'static> = Port { exports: &Exported, wrapper: &Exported };

#[cfg(feature = "port")]
pub use exported::{choices, wrapped};

#[cfg(feature = "port")]
mod exported {
    use bytes::Table as Bytes;
    use delmatik::{Count, LookupTerminal, Profile, Refusal, Rule, Table as Words, bytes, sys};

    use super::*;
    use crate::exports::Rooms;
    use crate::model::{self, Answer, Choices, Chosen};
    use crate::plain::{Ext, Field};
    use crate::table::{Interaction, Lookup, Part, Plan, SIZES, Table, chosen_of};
    use crate::wrapper::Refused;

    /// A size that is no number of this machine is over every limit all the same.
    fn size(n: u64) -> usize {
        n.try_into().unwrap_or(usize::MAX)
    }

    /// Calls an exported function with a field and a profile, and with the rule after `choices.rule`: `[list]` is lent as a pointer and a length,
    /// `[mut list]` to be written. The details hold other numbers before.
    macro_rules! call {
        ($choices:ident$(.$rule:ident)?, $function:ident($($arguments:tt)*)) => {{
            let mut details = [7; 3];
            let number = call!(@ $function details ($choices.field, $choices.profile, $($choices.$rule,)?) $($arguments)*);
            Answer { number, details }
        }};
        (@ $function:ident $details:ident ($($done:tt)*) [mut $list:expr], $($rest:tt)*) => {
            call!(@ $function $details ($($done)* $list.as_mut_ptr(), $list.len(),) $($rest)*)
        };
        (@ $function:ident $details:ident ($($done:tt)*) [$list:expr], $($rest:tt)*) => {
            call!(@ $function $details ($($done)* $list.as_ptr(), $list.len(),) $($rest)*)
        };
        (@ $function:ident $details:ident ($($done:tt)*) $argument:expr, $($rest:tt)*) => {
            call!(@ $function $details ($($done)* $argument,) $($rest)*)
        };
        (@ $function:ident $details:ident ($($done:tt)*)) => { unsafe { sys::$function($($done)* &mut $details) } };
    }

    impl Exports for Exported {
        fn generate(&self, choices: Choices, t: &Table, challenges: &[u32], trace: &mut [u32], terminal: &mut [u32; 5]) -> Answer {
            call! { choices.rule, delmatik_generate(
                size(t.main_width), size(t.height), size(t.pre_width), size(t.pre_height), [t.main], [t.preprocessed], [t.public_values],
                [t.nodes], [t.lookups], [t.names], [t.tuples], [t.multiplicities], [t.flags], [t.elements], [challenges], [mut trace],
                terminal,
            ) }
        }

        fn constraints(
            &self,
            choices: Choices,
            t: &Table,
            challenges: &[u32],
            width: u64,
            trace: &[u32],
            [mark, t0, t1, t2, t3]: [u32; 5],
        ) -> Answer {
            call! { choices.rule, delmatik_constraints(
                size(t.main_width), size(t.height), size(t.pre_width), size(t.pre_height), [t.main], [t.preprocessed], [t.public_values],
                [t.nodes], [t.lookups], [t.names], [t.tuples], [t.multiplicities], [t.flags], [t.elements], [challenges], size(width),
                [trace], mark, t0, t1, t2, t3,
            ) }
        }

        fn degree(&self, choices: Choices, t: &Table, lookup: u64, transition: u32, degree: &mut u64) -> Answer {
            call! { choices, delmatik_degree(
                size(t.main_width), size(t.pre_width), t.public_values.len(), [t.nodes], [t.lookups], [t.names], [t.tuples],
                [t.multiplicities], [t.flags], [t.elements], size(lookup), transition, degree,
            ) }
        }

        fn pack(&self, choices: Choices, t: &Table, limit: u64, out: &mut Table, used: &mut [u64; 6]) -> Answer {
            call! { choices, delmatik_pack(
                limit, size(t.main_width), size(t.pre_width), t.public_values.len(), [t.nodes], [t.lookups], [t.names], [t.tuples],
                [t.multiplicities], [t.flags], [t.elements], [mut out.lookups], [mut out.names], [mut out.tuples],
                [mut out.multiplicities], [mut out.flags], [mut out.elements], used,
            ) }
        }

        fn build(&self, choices: Choices, t: &Table, plan: &Plan, lookups: &mut [u32], used: &mut u64) -> Answer {
            let Plan { kinds: [locals, globals, exclusives], interactions, weights, lists } = plan;
            call! { choices, delmatik_build(
                size(t.main_width), size(t.pre_width), t.public_values.len(), [t.nodes], size(*locals), size(*globals), size(*exclusives),
                [interactions], [weights], [lists.names], [lists.tuples], [lists.multiplicities], [lists.flags], [lists.elements],
                [mut lookups], used,
            ) }
        }

        fn widths(&self, choices: Choices, all: &Table, sizes: &[u32], widest: &mut u64) -> Answer {
            call! { choices, delmatik_widths([all.lookups], [all.names], [all.tuples], [sizes], widest,) }
        }

        fn height_bound(&self, choices: Choices, lookups: &[u32], counts: &[u32], heights: &[u32]) -> Answer {
            call! { choices, delmatik_height_bound([lookups], [counts], [heights],) }
        }

        fn terminals(&self, choices: Choices, terminals: &[u32]) -> Answer {
            call! { choices, delmatik_terminals([terminals],) }
        }

        fn prefixes(&self, choices: Choices, alpha: &[u32], beta: &[u32], width: u64, count: u64, out: &mut [u32]) -> Answer {
            call! { choices, delmatik_prefixes([alpha], [beta], size(width), size(count), [mut out],) }
        }

        fn balance(&self, choices: Choices, all: &Table, sizes: &[u32], seed: u64, workspace: &mut [u32]) -> Answer {
            call! { choices, delmatik_balance(
                [all.main], [all.preprocessed], [all.public_values], [all.nodes], [all.lookups], [all.names], [all.tuples],
                [all.multiplicities], [all.flags], [all.elements], [sizes], seed, [mut workspace],
            ) }
        }

        fn generate_bytes(
            &self,
            choices: Choices,
            t: &Table<u8>,
            challenges: &[u8],
            trace: &mut [u8],
            rooms: &mut Rooms,
            terminal: &mut [u32; 5],
        ) -> Answer {
            call! { choices.rule, delmatik_generate_bytes(
                size(t.main_width), size(t.height), size(t.pre_width), size(t.pre_height), [t.main], [t.preprocessed], [t.public_values],
                [t.nodes], [t.lookups], [t.names], [t.tuples], [t.multiplicities], [t.flags], [t.elements], [challenges], [mut trace],
                [mut rooms.read], [mut rooms.written], terminal,
            ) }
        }

        fn pack_bytes(
            &self,
            choices: Choices,
            t: &Table<u8>,
            limit: u64,
            out: &mut Table<u8>,
            rooms: &mut Rooms,
            used: &mut [u64; 6],
        ) -> Answer {
            call! { choices, delmatik_pack_bytes(
                limit, size(t.main_width), size(t.pre_width), t.public_values.len() / 4, [t.nodes], [t.lookups], [t.names], [t.tuples],
                [t.multiplicities], [t.flags], [t.elements], [mut out.lookups], [mut out.names], [mut out.tuples],
                [mut out.multiplicities], [mut out.flags], [mut out.elements], [mut rooms.read], [mut rooms.written], used,
            ) }
        }

        fn balance_bytes(
            &self,
            choices: Choices,
            all: &Table<u8>,
            sizes: &[u8],
            seed: u64,
            workspace: &mut [u8],
            rooms: &mut Rooms,
        ) -> Answer {
            call! { choices, delmatik_balance_bytes(
                [all.main], [all.preprocessed], [all.public_values], [all.nodes], [all.lookups], [all.names], [all.tuples],
                [all.multiplicities], [all.flags], [all.elements], [sizes], seed, [mut workspace], [mut rooms.read], [mut rooms.written],
            ) }
        }

        fn count_from_i32(&self, choices: Choices, nodes: &mut [u32], used: u64, x: i32, count: &mut [u32; 2]) -> Answer {
            call! { choices, delmatik_count_from_i32([mut nodes], size(used), x, count,) }
        }

        fn count_negated(&self, choices: Choices, nodes: &mut [u32], used: u64, [node, weight]: [u32; 2], count: &mut [u32; 2]) -> Answer {
            call! { choices, delmatik_count_negated([mut nodes], size(used), node, weight, count,) }
        }

        fn count_bounded(&self, node: u32, weight: u32, count: &mut [u32; 2]) {
            unsafe { sys::delmatik_count_bounded(node, weight, count) }
        }

        fn count_provided(&self, node: u32, count: &mut [u32; 2]) {
            unsafe { sys::delmatik_count_provided(node, count) }
        }

        fn row(&self, trace: &[u32], lookups: u64, height: u64, row: u64, part: &mut [u64; 2]) {
            unsafe { sys::delmatik_row(trace.as_ptr(), trace.len(), size(lookups), size(height), row, part) }
        }

        fn power(&self, field: u32, a: &[u32], n: u32, out: &mut [u32]) -> u32 {
            unsafe { sys::delmatik_power(field, a.as_ptr(), a.len(), n, out.as_mut_ptr(), out.len()) }
        }

        fn inverse(&self, field: u32, a: &[u32], out: &mut [u32]) -> u32 {
            unsafe { sys::delmatik_inverse(field, a.as_ptr(), a.len(), out.as_mut_ptr(), out.len()) }
        }
    }

    /// The wrapper's choices for a field and profile.
    pub fn choices(chosen: impl Into<Chosen>) -> delmatik::Choices {
        let Chosen { field, profile, .. } = chosen.into();
        let profile = match profile {
            model::Profile::Cabinet => Profile::Cabinet,
            model::Profile::Gateway => Profile::Gateway,
        };
        delmatik::Choices { field: field_of(field), profile }
    }

    fn rule_of(rule: model::Rule) -> Rule {
        match rule {
            model::Rule::One => Rule::One,
            model::Rule::Two => Rule::Two,
        }
    }

    fn field_of(field: Field) -> delmatik::Field {
        match field {
            Field::BabyBear => delmatik::Field::BabyBear,
            Field::KoalaBear => delmatik::Field::KoalaBear,
        }
    }

    /// Those of some tables.
    fn choices_of(tables: &[Table]) -> delmatik::Choices {
        choices(chosen_of(tables))
    }

    /// A table of one crate as a table of another: their parts have the same names, but the wrapper's has no field, profile and rule.
    macro_rules! moved {
        ($table:expr, $size:expr, $into:ident, $($chosen:ident)*) => {{
            let (t, size) = ($table, $size);
            $into {
                main_width: size(t.main_width),
                height: size(t.height),
                pre_width: size(t.pre_width),
                pre_height: size(t.pre_height),
                main: t.main,
                preprocessed: t.preprocessed,
                public_values: t.public_values,
                nodes: t.nodes,
                lookups: t.lookups,
                names: t.names,
                tuples: t.tuples,
                multiplicities: t.multiplicities,
                flags: t.flags,
                elements: t.elements,
                $($chosen,)*
            }
        }};
    }

    /// The same table as the wrapper has it.
    pub fn wrapped(t: &Table) -> Words {
        moved!(t.clone(), size, Words,)
    }

    fn all_wrapped(tables: &[Table]) -> Vec<Words> {
        tables.iter().map(wrapped).collect()
    }

    fn unwrapped(Chosen { field, profile, rule }: Chosen, t: Words) -> Table {
        moved!(t, |n| n as u64, Table, field profile rule)
    }

    fn wrapped_bytes(t: &Table<u8>) -> Bytes {
        moved!(t.clone(), size, Bytes,)
    }

    fn unwrapped_bytes(Chosen { field, profile, rule }: Chosen, t: Bytes) -> Table<u8> {
        moved!(t, |n| n as u64, Table, field profile rule)
    }

    /// The tables as bytes, by the wrapper's own conversion, and the bytes of their sizes.
    fn all_bytes(tables: &[Table]) -> (Vec<Bytes>, Vec<u8>) {
        let tables = all_wrapped(tables);
        (tables.iter().map(Bytes::from).collect(), tables.iter().flat_map(|t| bytes::of(&t.sizes())).collect())
    }

    fn lookup(l: &Lookup) -> delmatik::Lookup {
        let Lookup { bus, weight, column, exclusive, tuples, multiplicities, flags } = l.clone();
        delmatik::Lookup { bus, weight, column, exclusive, tuples, multiplicities, flags }
    }

    fn interaction(i: &Interaction) -> delmatik::Interaction {
        let part = |p: &Part| delmatik::Part { elements: p.elements.clone(), multiplicity: p.multiplicity, weight: p.weight };
        match i {
            Interaction::Local(parts) => delmatik::Interaction::Local(parts.iter().map(part).collect()),
            Interaction::Global(bus, p) => delmatik::Interaction::Global(bus.clone(), part(p)),
            Interaction::Exclusive(bus, branches) => {
                delmatik::Interaction::Exclusive(bus.clone(), branches.iter().map(|(flag, p)| (*flag, part(p))).collect())
            }
        }
    }

    fn answer(Refusal { number, details }: Refusal) -> Answer {
        Answer { number, details }
    }

    fn count(Count { node, weight }: Count) -> [u32; 2] {
        [node, weight]
    }

    fn element(terminal: Option<LookupTerminal>) -> Option<Ext> {
        terminal.map(|LookupTerminal(e)| e)
    }

    impl Wrapper for Exported {
        fn with(&self, t: &Table, lookups: &[Lookup]) -> Table {
            unwrapped(t.chosen(), wrapped(t).with(&lookups.iter().map(lookup).collect::<Vec<_>>()))
        }

        fn lookup_count(&self, t: &Table) -> usize {
            wrapped(t).lookup_count()
        }

        fn sizes(&self, t: &Table) -> [u32; SIZES] {
            wrapped(t).sizes()
        }

        fn generate(&self, t: &Table, challenges: &[Ext]) -> Refused<(Vec<u32>, Option<Ext>)> {
            let generated = wrapped(t).generate(choices(t.chosen()), rule_of(t.rule), challenges).map_err(answer)?;
            Ok((generated.trace, element(generated.terminal)))
        }

        fn generate_into(&self, t: &Table, challenges: &[u32], trace: &mut [u32]) -> Refused<Option<Ext>> {
            wrapped(t).generate_into(choices(t.chosen()), rule_of(t.rule), challenges, trace).map(element).map_err(answer)
        }

        fn constraints(&self, t: &Table, challenges: &[Ext], width: u64, trace: &[u32], terminal: Option<Ext>) -> Refused<()> {
            wrapped(t)
                .constraints(choices(t.chosen()), rule_of(t.rule), challenges, size(width), trace, terminal.map(LookupTerminal))
                .map_err(answer)
        }

        fn constraints_on(&self, t: &Table, challenges: &[u32], width: u64, trace: &[u32], terminal: Option<Ext>) -> Refused<()> {
            wrapped(t)
                .constraints_on(choices(t.chosen()), rule_of(t.rule), challenges, size(width), trace, terminal.map(LookupTerminal))
                .map_err(answer)
        }

        fn degree(&self, t: &Table, lookup: u64, transition: u32) -> Refused<u64> {
            wrapped(t).degree(choices(t.chosen()), size(lookup), transition).map_err(answer)
        }

        fn pack(&self, t: &Table, limit: u64) -> Refused<Table> {
            wrapped(t).pack(choices(t.chosen()), limit).map(|packed| unwrapped(t.chosen(), packed)).map_err(answer)
        }

        fn build(&self, t: &Table, interactions: &[Interaction]) -> Refused<Table> {
            let built = wrapped(t).build(choices(t.chosen()), &interactions.iter().map(interaction).collect::<Vec<_>>());
            built.map(|built| unwrapped(t.chosen(), built)).map_err(answer)
        }

        fn widths(&self, tables: &[Table]) -> Refused<u64> {
            delmatik::widths(choices_of(tables), &all_wrapped(tables)).map_err(answer)
        }

        fn height_bound(&self, tables: &[Table], heights: &[u64]) -> Refused<()> {
            let heights: Vec<usize> = heights.iter().map(|h| size(*h)).collect();
            delmatik::height_bound(choices_of(tables), &all_wrapped(tables), &heights).map_err(answer)
        }

        fn terminals(&self, chosen: Chosen, terminals: &[Option<Ext>]) -> Refused<()> {
            delmatik::terminals(choices(chosen), &terminals.iter().map(|t| t.map(LookupTerminal)).collect::<Vec<_>>()).map_err(answer)
        }

        fn prefixes(&self, chosen: Chosen, alpha: Ext, beta: Ext, width: u64, count: u64) -> Refused<Vec<Ext>> {
            delmatik::prefixes(choices(chosen), alpha, beta, size(width), size(count)).map_err(answer)
        }

        fn balance(&self, tables: &[Table], workspace: &mut [u32]) -> Refused<()> {
            delmatik::balance(choices_of(tables), &all_wrapped(tables), workspace).map_err(answer)
        }

        fn balance_with_seed(&self, tables: &[Table], seed: u64, workspace: &mut [u32]) -> Refused<()> {
            delmatik::balance_with_seed(choices_of(tables), &all_wrapped(tables), seed, workspace).map_err(answer)
        }

        fn power(&self, field: Field, a: Ext, n: u32) -> Refused<Ext> {
            delmatik::power(field_of(field), a, n).map_err(answer)
        }

        fn inverse(&self, field: Field, a: Ext) -> Refused<Ext> {
            delmatik::inverse(field_of(field), a).map_err(answer)
        }

        fn count_bounded(&self, node: u32, weight: u32) -> [u32; 2] {
            count(Count::bounded(node, weight))
        }

        fn count_provided(&self, node: u32) -> [u32; 2] {
            count(Count::provided(node))
        }

        fn count_from_i32(&self, chosen: Chosen, nodes: &mut Vec<u32>, x: i32) -> Refused<[u32; 2]> {
            Count::from_i32(choices(chosen), nodes, x).map(count).map_err(answer)
        }

        fn count_negated(&self, chosen: Chosen, nodes: &mut Vec<u32>, [node, weight]: [u32; 2]) -> Refused<[u32; 2]> {
            Count { node, weight }.negated(choices(chosen), nodes).map(count).map_err(answer)
        }

        fn row(&self, trace: &[u32], lookups: u64, height: u64, row: u64) -> Vec<u32> {
            delmatik::row(trace, size(lookups), size(height), row).to_vec()
        }

        fn bytes_of(&self, words: &[u32]) -> Vec<u8> {
            bytes::of(words)
        }

        fn generate_bytes(&self, t: &Table<u8>, challenges: &[u8], trace: &mut [u8]) -> Refused<Option<Ext>> {
            wrapped_bytes(t).generate_into(choices(t.chosen()), rule_of(t.rule), challenges, trace).map(element).map_err(answer)
        }

        fn pack_bytes(&self, t: &Table<u8>, limit: u64) -> Refused<Table<u8>> {
            wrapped_bytes(t).pack(choices(t.chosen()), limit).map(|packed| unwrapped_bytes(t.chosen(), packed)).map_err(answer)
        }

        fn balance_bytes(&self, tables: &[Table], workspace: &mut [u8]) -> Refused<()> {
            let (lists, sizes) = all_bytes(tables);
            bytes::balance(choices_of(tables), &lists, &sizes, workspace).map_err(answer)
        }

        fn balance_bytes_with_seed(&self, tables: &[Table], seed: u64, workspace: &mut [u8]) -> Refused<()> {
            let (lists, sizes) = all_bytes(tables);
            bytes::balance_with_seed(choices_of(tables), &lists, &sizes, seed, workspace).map_err(answer)
        }
    }
}
