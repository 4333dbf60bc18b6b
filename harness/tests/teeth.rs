//! The comparison notices wrong ports and wrong wrappers, and makes what it finds small. The wrong ones are readings that
//! docs/SPECIFICATION.md rules out, fields, profiles and tuple rules that are mixed, choices, row offsets and weights that are not tested or read
//! otherwise, outputs that are written or left where they must not be, and slips in the wrapper.
use std::borrow::Cow;

use harness::compare::{Disagreement, Tally, check_port};
use harness::exports::{Exports, Model, Rooms, marked};
use harness::generator::{self, Case};
use harness::model::{self, Answer, Choices, Chosen, Profile, Rule};
use harness::plain::{Ext, Field, KoalaBear, PrimeField, Random};
use harness::port::Port;
use harness::shrink::shrink;
use harness::table::{Interaction, LOOKUP_WORDS, Lookup, NODE_WORDS, Plan, SIZES, Table, halves, words_of};
use harness::tuned::{self, Product};
use harness::wrapper::{Refused, Wrapper};

/// The mistakes by name, and the list of all of them.
macro_rules! mistakes {
    ($($name:ident,)*) => {
        /// Answers as the model does, but for one mistake.
        #[derive(Clone, Copy, Debug, PartialEq)]
        enum Mistake {
            Nothing,
            $($name,)*
        }
        use Mistake::*;
        const MISTAKES: &[Mistake] = &[$($name,)*];
    };
}

mistakes! {
    // Readings.
    FirstElementBetaZero, InclusiveAccumulator, TerminalZero, BufferNotWritten, LastRowZero, OtherDetails, AcceptsAnyTrace, NumericOrder,
    WidestOfLocalsToo, PacksNothing, LosesATuple, SumsBranches, AbsentTerminalTested, CountNotReduced, MagnitudeNotTaken,
    NegatesAbsentNode, NodeLimitForgotten, ProvidedWithWeight, BoundedWithoutWeight, RowAfterTheLast, PartOfARow, RowWithoutLookups,
    PowerOneMore, InverseOfZero, SeedMovesSlots,
    // Weights of locals in building, then in packing.
    WrapsASum, HoldsASum, LosesHighHalves, HoldsPackedWeights, SevenOfALocal,
    // Tests that are missing or out of order.
    WidthsWithoutFive, BoundWithoutFive, ShortOutputAfterFive, SizesPastTheListsTaken, OddTerminalWordsTaken, TwoTuplesOfAGlobalTaken,
    ShortElementTaken, OddBytesTaken,
    // The first prime or its X⁴ = 11 in the second field, and the second prime in the first field.
    FirstPrimeInTwo, FirstPrimeInTwoOfConstants, FirstPrimeInNineteen, FirstPrimeInFractions, FirstPrimeInConstraints, FirstPrimeInTerminals,
    FirstPrimeInNets, FirstPrimeInCounts, ElevenInFractions, ElevenInPrefixes, ElevenInPowers, ElevenInInverses, SecondPrimeInTwo,
    SecondPrimeInNineteen,
    // Rule 2 by rule 1 on tuples that are not reversed one by one, and its faults by rule 1.
    AllReversedAsOne, LookupsReversedAsOne, FirstTupleReversedAlone, EndsExchanged, ConstraintsReverseAllAsOne, FaultsByRuleOne,
    // Lent words.
    WritesPastTheEnd, KeepsTraceAfterFault, WorkspaceNotCleared, TerminalZeroedByRefusal, TerminalKeptAfterFault, DegreeZeroedByRefusal,
    PackedZeroedByRefusal, BuiltZeroedByRefusal, WidestZeroedByRefusal, UsedInRecords, PackedPastTheEnd, PrefixesZeroedByRefusal,
    ElementZeroedByRefusal, CountZeroedByRefusal, NodesZeroedByRefusal, RoomNotFilled, WrittenRoomNotFilled, RoomFilledThoughRefused, RoomReversed,
    BytesTerminalZeroedByRefusal, BytesUsedZeroedByRefusal,
    // The wrapper.
    WithoutFlags, WithoutNames, WithoutHighHalves, CountOfEight, SizesExchanged, GenerateWithoutTerminal, GenerateShort,
    ConstraintsWithoutTerminal, PackNotCut,
    BuildUnsorted, WidthsOfTheFirst, BoundOfTheFirst, AbsentTerminalAsZeroMark, PrefixesOneShort, BalanceOfTheFirst, PowerExchanged,
    InverseNotTaken, RefusalWithoutDetails, BytesReversed, BytesPackInWords, BytesGenerateWithoutTerminal, BytesBalanceAccepts,
    SeededBalanceAccepts, BytesSeededBalanceAccepts, BoundedExchanged, ProvidedIsBounded, CountOfTheMagnitude, NodesOfACountKept,
    RefusedCountAddsNode, RowWithoutAccumulator,
}

const RIGHT: &dyn Exports = &Model;
const SAFE: &dyn Wrapper = &Model;

fn by_refusal(answer: Answer) -> bool {
    (1..=12).contains(&answer.number)
}

/// The second field, but for X⁴.
struct Eleven;

impl PrimeField for Eleven {
    const P: u32 = KoalaBear::P;
    const W: u32 = 11;
}

/// The same call in field 1.
fn of_first(choices: Choices) -> Choices {
    Choices { field: Field::BabyBear.number(), ..choices }
}

/// The same call in field 2.
fn of_second(choices: Choices) -> Choices {
    Choices { field: Field::KoalaBear.number(), ..choices }
}

/// The same call in another profile.
fn of_profile(choices: Choices, profile: Profile) -> Choices {
    Choices { profile: profile.number(), ..choices }
}

/// The same call by another rule.
fn by_rule(choices: Choices, rule: Rule) -> Choices {
    Choices { rule: rule.number(), ..choices }
}

fn is_by_two(choices: Choices) -> bool {
    choices.rule == Rule::Two.number()
}

fn other_field(field: Field) -> Field {
    if field == Field::BabyBear { Field::KoalaBear } else { Field::BabyBear }
}

fn other_profile(profile: Profile) -> Profile {
    if profile == Profile::Cabinet { Profile::Gateway } else { Profile::Cabinet }
}

fn is_first(choices: Choices) -> bool {
    choices.field == Field::BabyBear.number()
}

fn is_second(choices: Choices) -> bool {
    choices.field == Field::KoalaBear.number()
}

/// Whether there is a word that the second field alone has.
fn between(words: &[u32]) -> bool {
    words.iter().any(|word| Field::BabyBear.prime() <= *word)
}

/// The elements of some tuples, the last first.
fn reversed(tuples: &[Vec<u32>]) -> Vec<u32> {
    tuples.concat().into_iter().rev().collect()
}

impl Mistake {
    /// The call by rule 1 that is made in the place of one by rule 2, if any.
    fn by_rule_1(&self, choices: Choices, t: &Table) -> Option<(Choices, Table)> {
        if !is_by_two(choices) || !t.fits() {
            return None;
        }
        let lookups: Vec<Vec<Vec<u32>>> = t.records().into_iter().map(|r| r.tuples).collect();
        let mut tuples = lookups.concat();
        match self {
            AllReversedAsOne | ConstraintsReverseAllAsOne => tuples = vec![reversed(&tuples)],
            LookupsReversedAsOne => tuples = lookups.iter().map(|tuples| reversed(tuples)).collect(),
            FirstTupleReversedAlone => tuples.iter_mut().take(1).for_each(|tuple| tuple.reverse()),
            EndsExchanged => tuples.iter_mut().for_each(|tuple| {
                if let [first, .., last] = &mut tuple[..] {
                    std::mem::swap(first, last);
                }
            }),
            _ => return None,
        }
        Some((by_rule(choices, Rule::One), Table { elements: tuples.concat(), ..t.clone() }))
    }
}

impl Exports for Mistake {
    fn generate(&self, choices: Choices, t: &Table, challenges: &[u32], trace: &mut [u32], terminal: &mut [u32; 5]) -> Answer {
        let instead = match self {
            FirstElementBetaZero => Some((choices, t.reversed())),
            ConstraintsReverseAllAsOne => None,
            _ => self.by_rule_1(choices, t),
        };
        if let Some((choices, t)) = instead {
            return RIGHT.generate(choices, &t, challenges, trace, terminal);
        }
        let (before, terminal_before) = (trace.to_vec(), *terminal);
        let mut answer = RIGHT.generate(choices, t, challenges, trace, terminal);
        let accepted = answer.number == 0;
        let given = accepted && terminal[0] == 1;
        let row = 4 * (t.lookup_count() + 1);
        match self {
            TerminalZero if given => *terminal = [1, 0, 0, 0, 0],
            BufferNotWritten => trace.copy_from_slice(&before),
            WritesPastTheEnd if accepted => trace.iter_mut().skip(t.height as usize * row).for_each(|word| *word = 0),
            LastRowZero if given && 1 < t.height => trace[(t.height as usize - 1) * row..][..row].fill(0),
            InclusiveAccumulator if given => {
                for words in trace[..t.height as usize * row].chunks_exact_mut(row) {
                    let sum = words.chunks_exact(4).map(|e| e.try_into().unwrap()).fold([0; 4], |a, b| t.field.add(a, b));
                    words[..4].copy_from_slice(&sum);
                }
            }
            FaultsByRuleOne if given && is_by_two(choices) => {
                let (mut rows, mut sum) = (trace.to_vec(), *terminal);
                let by_one = RIGHT.generate(by_rule(choices, Rule::One), t, challenges, &mut rows, &mut sum);
                if by_one.number == 15 {
                    trace.copy_from_slice(&rows);
                    *terminal = sum;
                    answer = by_one;
                }
            }
            KeepsTraceAfterFault if 13 <= answer.number => trace.copy_from_slice(&before),
            TerminalKeptAfterFault if 13 <= answer.number => *terminal = terminal_before,
            TerminalZeroedByRefusal if by_refusal(answer) => *terminal = [0; 5],
            OtherDetails => answer.details.swap(0, 1),
            FirstPrimeInTwo if is_second(choices) && answer.number != 1 && between(&t.main) => {
                trace.copy_from_slice(&before);
                *terminal = terminal_before;
                answer = model::refused(2);
            }
            FirstPrimeInFractions if given && is_second(choices) => _ = RIGHT.generate(of_first(choices), t, challenges, trace, terminal),
            ElevenInFractions if given && is_second(choices) => {
                let (words, sum) = tuned::generate_in::<Eleven>(t, challenges, Product::Denominators);
                trace[..words.len()].copy_from_slice(&words);
                *terminal = marked(sum);
            }
            _ => (),
        }
        answer
    }

    fn constraints(&self, choices: Choices, t: &Table, challenges: &[u32], width: u64, trace: &[u32], terminal: [u32; 5]) -> Answer {
        let answer = RIGHT.constraints(choices, t, challenges, width, trace, terminal);
        match self {
            ConstraintsReverseAllAsOne => {
                let instead = self.by_rule_1(choices, t);
                instead.map_or(answer, |(choices, t)| RIGHT.constraints(choices, &t, challenges, width, trace, terminal))
            }
            AcceptsAnyTrace if answer.number == 17 => model::ACCEPTED,
            AbsentTerminalTested if answer.number != 1 && terminal[0] == 0 && terminal[1] == u32::MAX => model::refused(2),
            FirstPrimeInConstraints if is_second(choices) => {
                let by_first = RIGHT.constraints(of_first(choices), t, challenges, width, trace, terminal);
                if by_first.number == 2 { answer } else { by_first }
            }
            SecondPrimeInTwo if is_first(choices) && answer.number == 2 => {
                RIGHT.constraints(of_second(choices), t, challenges, width, trace, terminal)
            }
            _ => answer,
        }
    }

    fn degree(&self, choices: Choices, t: &Table, lookup: u64, transition: u32, degree: &mut u64) -> Answer {
        let answer = RIGHT.degree(choices, t, lookup, transition, degree);
        if *self == DegreeZeroedByRefusal && by_refusal(answer) {
            *degree = 0;
        }
        answer
    }

    fn pack(&self, choices: Choices, t: &Table, limit: u64, out: &mut Table, used: &mut [u64; 6]) -> Answer {
        let before = (out.clone(), *used);
        let answer = RIGHT.pack(choices, t, if *self == PacksNothing { 0 } else { limit }, out, used);
        match self {
            FirstPrimeInTwoOfConstants if is_second(choices) && RIGHT.pack(of_first(choices), t, limit, out, used).number == 2 => {
                (*out, *used) = before;
                return model::refused(2);
            }
            LosesATuple if answer.number == 0 => used[2] = used[2].saturating_sub(1),
            UsedInRecords if answer.number == 0 => used[0] /= LOOKUP_WORDS as u64,
            LosesHighHalves | HoldsPackedWeights if answer.number == 0 => {
                let written = out.lookups[..used[0] as usize].chunks_exact_mut(LOOKUP_WORDS).filter(|entry| entry[8] != 0);
                written.for_each(|entry| [entry[2], entry[8]] = [if *self == LosesHighHalves { entry[2] } else { u32::MAX }, 0]);
            }
            SevenOfALocal if answer.number == 0 && t.has_heavy_local() => {
                (*out, *used) = before;
                return model::refused(7);
            }
            PackedPastTheEnd if answer.number == 0 => out.elements.iter_mut().skip(used[5] as usize).for_each(|word| *word = 0),
            PackedZeroedByRefusal if by_refusal(answer) => *used = [0; 6],
            ShortOutputAfterFive if answer.number == 1 => {
                let found = model::pack(t, limit).0;
                return if (2..=5).contains(&found.number) { found } else { answer };
            }
            _ => (),
        }
        answer
    }

    fn build(&self, choices: Choices, t: &Table, plan: &Plan, lookups: &mut [u32], used: &mut u64) -> Answer {
        let answer = RIGHT.build(choices, t, plan, lookups, used);
        let mut weights = &plan.weights[..];
        for (lookup, words) in lookups.chunks_exact_mut(LOOKUP_WORDS).zip(plan.interactions.chunks_exact(2)) {
            let own = weights.split_off(..weights.len().min(words[1] as usize)).unwrap();
            match self {
                SumsBranches if answer.number == 0 && lookup[4] == 1 => lookup[2] = own.iter().copied().fold(0, u32::saturating_add),
                WrapsASum if answer.number == 0 => lookup[8] = 0,
                HoldsASum if answer.number == 0 && lookup[8] != 0 => [lookup[2], lookup[8]] = [u32::MAX, 0],
                _ => (),
            }
        }
        match self {
            BuiltZeroedByRefusal if by_refusal(answer) => *used = 0,
            TwoTuplesOfAGlobalTaken if answer.number == 1 && plan.kinds[1] == 1 && plan.interactions.contains(&2) => {
                return model::ACCEPTED;
            }
            _ => (),
        }
        answer
    }

    fn widths(&self, choices: Choices, all: &Table, sizes: &[u32], widest: &mut u64) -> Answer {
        let answer = RIGHT.widths(choices, all, sizes, widest);
        match self {
            WidestOfLocalsToo if answer.number == 0 => *widest = all.tuples.iter().map(|w| u64::from(*w)).max().unwrap_or(0),
            WidestZeroedByRefusal if by_refusal(answer) => *widest = 0,
            WidthsWithoutFive if answer.number == 5 => return model::ACCEPTED,
            _ => (),
        }
        answer
    }

    fn height_bound(&self, choices: Choices, lookups: &[u32], counts: &[u32], heights: &[u32]) -> Answer {
        let answer = RIGHT.height_bound(choices, lookups, counts, heights);
        match self {
            BoundWithoutFive if answer.number == 5 => model::ACCEPTED,
            FirstPrimeInNineteen if is_second(choices) => RIGHT.height_bound(of_first(choices), lookups, counts, heights),
            SecondPrimeInNineteen if is_first(choices) => RIGHT.height_bound(of_second(choices), lookups, counts, heights),
            _ => answer,
        }
    }

    fn terminals(&self, choices: Choices, terminals: &[u32]) -> Answer {
        let whole = terminals.as_chunks::<5>().0.as_flattened();
        let by_first = RIGHT.terminals(of_first(choices), terminals);
        match self {
            OddTerminalWordsTaken => RIGHT.terminals(choices, whole),
            FirstPrimeInTerminals if is_second(choices) && by_first.number != 2 => by_first,
            _ => RIGHT.terminals(choices, terminals),
        }
    }

    fn prefixes(&self, choices: Choices, alpha: &[u32], beta: &[u32], width: u64, count: u64, out: &mut [u32]) -> Answer {
        let answer = RIGHT.prefixes(choices, alpha, beta, width, count, out);
        match self {
            PrefixesZeroedByRefusal if by_refusal(answer) => out.fill(0),
            ElevenInPrefixes if is_second(choices) && answer.number == 0 => {
                let gamma = Eleven::power(beta.try_into().unwrap(), width as u32);
                for (words, i) in out.chunks_exact_mut(4).zip(1..=count as u32) {
                    words.copy_from_slice(&Eleven::add(alpha.try_into().unwrap(), Eleven::scale(i, gamma)));
                }
            }
            _ => (),
        }
        answer
    }

    fn balance(&self, choices: Choices, all: &Table, sizes: &[u32], seed: u64, workspace: &mut [u32]) -> Answer {
        let before = workspace.to_vec();
        let sizes = if *self == SizesPastTheListsTaken { &sizes[..sizes.len() / SIZES * SIZES] } else { sizes };
        let mut answer = RIGHT.balance(choices, all, sizes, seed, workspace);
        if *self == FirstPrimeInNets && is_second(choices) {
            let mut nets = before.clone();
            let by_first = RIGHT.balance(of_first(choices), all, sizes, seed, &mut nets);
            if by_first.number != 2 {
                workspace.copy_from_slice(&nets);
                answer = by_first;
            }
        }
        if *self == NumericOrder && answer.number == 18 {
            let slots = || workspace.chunks_exact(model::SLOT_WORDS).enumerate().filter(|(_, slot)| slot[9] != 0);
            let (slot, words) = slots().min_by_key(|(_, slot)| slot[1..9].to_vec()).unwrap();
            answer.details = [answer.details[0], slot as u64, words[9].into()];
        }
        let end = workspace.len() / model::SLOT_WORDS * model::SLOT_WORDS;
        match self {
            WorkspaceNotCleared => workspace[end..].copy_from_slice(&before[end..]),
            SeedMovesSlots if seed != 0 && !by_refusal(answer) && 20 <= end => workspace[..20].rotate_left(10),
            _ => (),
        }
        answer
    }

    fn generate_bytes(
        &self,
        choices: Choices,
        t: &Table<u8>,
        challenges: &[u8],
        trace: &mut [u8],
        rooms: &mut Rooms,
        terminal: &mut [u32; 5],
    ) -> Answer {
        let before = rooms.clone();
        let answer = RIGHT.generate_bytes(choices, t, challenges, trace, rooms, terminal);
        if *self == RoomReversed && is_by_two(choices) && rooms.read != before.read {
            // The elements are the last of its lists.
            let reversed = t.words().reversed().elements;
            let start = rooms.read.len() - reversed.len();
            rooms.read[start..].copy_from_slice(&reversed);
        }
        self.of_rooms(answer, before, rooms);
        if *self == BytesTerminalZeroedByRefusal && by_refusal(answer) {
            *terminal = [0; 5];
        }
        answer
    }

    fn pack_bytes(
        &self,
        choices: Choices,
        t: &Table<u8>,
        limit: u64,
        out: &mut Table<u8>,
        rooms: &mut Rooms,
        used: &mut [u64; 6],
    ) -> Answer {
        let before = rooms.clone();
        let answer = RIGHT.pack_bytes(choices, t, limit, out, rooms, used);
        self.of_rooms(answer, before, rooms);
        if *self == BytesUsedZeroedByRefusal && by_refusal(answer) {
            *used = [0; 6];
        }
        answer
    }

    fn balance_bytes(&self, choices: Choices, all: &Table<u8>, sizes: &[u8], seed: u64, workspace: &mut [u8], rooms: &mut Rooms) -> Answer {
        let before = rooms.clone();
        let mut whole = all.clone();
        if *self == OddBytesTaken {
            whole.main.truncate(all.main.len() / 4 * 4);
        }
        let answer = RIGHT.balance_bytes(choices, &whole, sizes, seed, workspace, rooms);
        self.of_rooms(answer, before, rooms);
        answer
    }

    fn count_from_i32(&self, choices: Choices, nodes: &mut [u32], used: u64, x: i32, count: &mut [u32; 2]) -> Answer {
        let first = *self == FirstPrimeInCounts && is_second(choices);
        let answer = RIGHT.count_from_i32(if first { of_first(choices) } else { choices }, nodes, used, x, count);
        let at = NODE_WORDS * (used as usize).min(nodes.len());
        match self {
            CountNotReduced if answer.number == 0 && 0 <= x => nodes[at + 1] = x as u32,
            MagnitudeNotTaken if answer.number == 0 => count[1] = x as u32,
            CountZeroedByRefusal if by_refusal(answer) => *count = [0; 2],
            NodesZeroedByRefusal if by_refusal(answer) => nodes.iter_mut().skip(at).for_each(|word| *word = 0),
            NodeLimitForgotten if by_refusal(answer) && at + NODE_WORDS <= nodes.len() => return model::ACCEPTED,
            _ => (),
        }
        answer
    }

    fn count_negated(&self, choices: Choices, nodes: &mut [u32], used: u64, of: [u32; 2], count: &mut [u32; 2]) -> Answer {
        let answer = RIGHT.count_negated(choices, nodes, used, of, count);
        if *self == NegatesAbsentNode && answer.number == 3 { model::ACCEPTED } else { answer }
    }

    fn count_bounded(&self, node: u32, weight: u32, count: &mut [u32; 2]) {
        RIGHT.count_bounded(node, if *self == BoundedWithoutWeight { 0 } else { weight }, count);
    }

    fn count_provided(&self, node: u32, count: &mut [u32; 2]) {
        RIGHT.count_provided(node, count);
        if *self == ProvidedWithWeight {
            count[1] = 1;
        }
    }

    fn row(&self, trace: &[u32], lookups: u64, height: u64, row: u64, part: &mut [u64; 2]) {
        RIGHT.row(trace, lookups, height, row, part);
        let (width, words) = (4 * (u128::from(lookups) + 1), trace.len() as u128);
        let start = width * u128::from(row);
        match self {
            RowAfterTheLast => RIGHT.row(trace, lookups, height.saturating_add(1), row, part),
            RowWithoutLookups if lookups == 0 && row < height && start + width <= words => *part = [start as u64, 4],
            PartOfARow if lookups != 0 && row < height && start < words => *part = [start as u64, width.min(words - start) as u64],
            _ => (),
        }
    }

    fn power(&self, field: u32, a: &[u32], n: u32, out: &mut [u32]) -> u32 {
        let number = RIGHT.power(field, a, if *self == PowerOneMore { n + 1 } else { n }, out);
        match self {
            ElementZeroedByRefusal if number != 0 => out.fill(0),
            ElevenInPowers if field == 2 && number == 0 => out.copy_from_slice(&Eleven::power(a.try_into().unwrap(), n)),
            _ => (),
        }
        number
    }

    fn inverse(&self, field: u32, a: &[u32], out: &mut [u32]) -> u32 {
        let number = RIGHT.inverse(field, a, out);
        match self {
            InverseOfZero if number == 0 && a == [0; 4] => out[0] = 1,
            ShortElementTaken if a.len() == 3 => return 0,
            ElevenInInverses if field == 2 && number == 0 => out.copy_from_slice(&Eleven::inverse(a.try_into().unwrap())),
            _ => (),
        }
        number
    }
}

impl Mistake {
    fn of_rooms(&self, answer: Answer, before: Rooms, rooms: &mut Rooms) {
        match self {
            RoomNotFilled => rooms.read = before.read,
            WrittenRoomNotFilled => rooms.written = before.written,
            RoomFilledThoughRefused if answer.number == 1 => rooms.read.fill(0),
            _ => (),
        }
    }
}

impl Wrapper for Mistake {
    fn with(&self, t: &Table, lookups: &[Lookup]) -> Table {
        let mut with = SAFE.with(t, lookups);
        match self {
            WithoutFlags => with.flags.clear(),
            WithoutNames => with.names.clear(),
            WithoutHighHalves => with.lookups.chunks_exact_mut(LOOKUP_WORDS).for_each(|entry| entry[8] = 0),
            _ => (),
        }
        with
    }

    fn lookup_count(&self, t: &Table) -> usize {
        if *self == CountOfEight { t.lookups.len() / 8 } else { SAFE.lookup_count(t) }
    }

    fn sizes(&self, t: &Table) -> [u32; SIZES] {
        let mut sizes = SAFE.sizes(t);
        if *self == SizesExchanged {
            sizes.swap(11, 12);
        }
        sizes
    }

    fn generate(&self, t: &Table, challenges: &[Ext]) -> Refused<(Vec<u32>, Option<Ext>)> {
        let (mut trace, terminal) = SAFE.generate(t, challenges)?;
        if *self == GenerateShort {
            trace.truncate(trace.len() / 2);
        }
        Ok((trace, terminal.filter(|_| *self != GenerateWithoutTerminal)))
    }

    fn generate_into(&self, t: &Table, challenges: &[u32], trace: &mut [u32]) -> Refused<Option<Ext>> {
        let without = |mut answer: Answer| {
            if *self == RefusalWithoutDetails {
                answer.details = [0; 3];
            }
            answer
        };
        SAFE.generate_into(t, challenges, trace).map_err(without)
    }

    fn constraints(&self, t: &Table, challenges: &[Ext], width: u64, trace: &[u32], terminal: Option<Ext>) -> Refused<()> {
        SAFE.constraints(t, challenges, width, trace, terminal)
    }

    fn constraints_on(&self, t: &Table, challenges: &[u32], width: u64, trace: &[u32], terminal: Option<Ext>) -> Refused<()> {
        SAFE.constraints_on(t, challenges, width, trace, terminal.filter(|_| *self != ConstraintsWithoutTerminal))
    }

    fn degree(&self, t: &Table, lookup: u64, transition: u32) -> Refused<u64> {
        SAFE.degree(t, lookup, transition)
    }

    fn pack(&self, t: &Table, limit: u64) -> Refused<Table> {
        let mut packed = SAFE.pack(t, limit)?;
        if *self == PackNotCut {
            packed.lookups.resize(t.lookups.len(), 0);
        }
        Ok(packed)
    }

    fn build(&self, t: &Table, interactions: &[Interaction]) -> Refused<Table> {
        let mut built = SAFE.build(t, interactions)?;
        if *self == BuildUnsorted {
            built.names = interactions.iter().flat_map(|i| Plan::of(std::slice::from_ref(i)).lists.names).collect();
        }
        Ok(built)
    }

    fn widths(&self, tables: &[Table]) -> Refused<u64> {
        SAFE.widths(if *self == WidthsOfTheFirst { &tables[..1] } else { tables })
    }

    fn height_bound(&self, tables: &[Table], heights: &[u64]) -> Refused<()> {
        let n = if *self == BoundOfTheFirst { heights.len().min(1) } else { heights.len() };
        SAFE.height_bound(if *self == BoundOfTheFirst { &tables[..1] } else { tables }, &heights[..n])
    }

    fn terminals(&self, chosen: Chosen, terminals: &[Option<Ext>]) -> Refused<()> {
        let absent = |t: &Option<Ext>| t.or(Some([1, 0, 0, 0]));
        if *self == AbsentTerminalAsZeroMark {
            return SAFE.terminals(chosen, &terminals.iter().map(absent).collect::<Vec<_>>());
        }
        SAFE.terminals(chosen, terminals)
    }

    fn prefixes(&self, chosen: Chosen, alpha: Ext, beta: Ext, width: u64, count: u64) -> Refused<Vec<Ext>> {
        let mut prefixes = SAFE.prefixes(chosen, alpha, beta, width, count)?;
        if *self == PrefixesOneShort {
            prefixes.pop();
        }
        Ok(prefixes)
    }

    fn balance(&self, tables: &[Table], workspace: &mut [u32]) -> Refused<()> {
        SAFE.balance(if *self == BalanceOfTheFirst { &tables[..1] } else { tables }, workspace)
    }

    fn balance_with_seed(&self, tables: &[Table], seed: u64, workspace: &mut [u32]) -> Refused<()> {
        let balanced = SAFE.balance_with_seed(tables, seed, workspace);
        if *self == SeededBalanceAccepts && seed == 0 { Ok(()) } else { balanced }
    }

    fn power(&self, field: Field, a: Ext, n: u32) -> Refused<Ext> {
        let mut power = SAFE.power(field, a, n)?;
        if *self == PowerExchanged {
            power.swap(0, 3);
        }
        Ok(power)
    }

    fn inverse(&self, field: Field, a: Ext) -> Refused<Ext> {
        if *self == InverseNotTaken { Ok(a) } else { SAFE.inverse(field, a) }
    }

    fn count_bounded(&self, node: u32, weight: u32) -> [u32; 2] {
        if *self == BoundedExchanged { SAFE.count_bounded(weight, node) } else { SAFE.count_bounded(node, weight) }
    }

    fn count_provided(&self, node: u32) -> [u32; 2] {
        if *self == ProvidedIsBounded { SAFE.count_bounded(node, 1) } else { SAFE.count_provided(node) }
    }

    fn count_from_i32(&self, chosen: Chosen, nodes: &mut Vec<u32>, x: i32) -> Refused<[u32; 2]> {
        let counted = SAFE.count_from_i32(chosen, nodes, if *self == CountOfTheMagnitude { x.wrapping_abs() } else { x });
        if *self == NodesOfACountKept {
            nodes.truncate(nodes.len().saturating_sub(NODE_WORDS));
        }
        counted
    }

    fn count_negated(&self, chosen: Chosen, nodes: &mut Vec<u32>, of: [u32; 2]) -> Refused<[u32; 2]> {
        let counted = SAFE.count_negated(chosen, nodes, of);
        if *self == RefusedCountAddsNode && counted.is_err() {
            nodes.extend([0; NODE_WORDS]);
        }
        counted
    }

    fn row(&self, trace: &[u32], lookups: u64, height: u64, row: u64) -> Vec<u32> {
        let part = SAFE.row(trace, lookups, height, row);
        if *self == RowWithoutAccumulator { part.into_iter().skip(4).collect() } else { part }
    }

    fn bytes_of(&self, words: &[u32]) -> Vec<u8> {
        if *self == BytesReversed { words.iter().flat_map(|w| w.to_be_bytes()).collect() } else { SAFE.bytes_of(words) }
    }

    fn generate_bytes(&self, t: &Table<u8>, challenges: &[u8], trace: &mut [u8]) -> Refused<Option<Ext>> {
        Ok(SAFE.generate_bytes(t, challenges, trace)?.filter(|_| *self != BytesGenerateWithoutTerminal))
    }

    fn pack_bytes(&self, t: &Table<u8>, limit: u64) -> Refused<Table<u8>> {
        let mut packed = SAFE.pack_bytes(t, limit)?;
        if *self == BytesPackInWords {
            packed.lookups.truncate(packed.lookups.len() / 4);
        }
        Ok(packed)
    }

    fn balance_bytes(&self, tables: &[Table], workspace: &mut [u8]) -> Refused<()> {
        let balanced = SAFE.balance_bytes(tables, workspace);
        if *self == BytesBalanceAccepts { Ok(()) } else { balanced }
    }

    fn balance_bytes_with_seed(&self, tables: &[Table], seed: u64, workspace: &mut [u8]) -> Refused<()> {
        let balanced = SAFE.balance_bytes_with_seed(tables, seed, workspace);
        if *self == BytesSeededBalanceAccepts { Ok(()) } else { balanced }
    }
}

fn compared<Wrong: Exports + Wrapper>(wrong: &Wrong, case: &Case) -> Option<Disagreement> {
    check_port(case, Port { exports: wrong, wrapper: wrong }, &mut Tally::default()).err()
}

/// Reads the choices, the row offsets or the weights of one function otherwise than it must.
struct Misread {
    function: &'static str,
    slip: Slip,
}

#[derive(Clone, Copy, Debug, PartialEq)]
enum Slip {
    /// Everything is in field 1, or in the other field.
    FieldIgnored,
    FieldsExchanged,
    FieldAndProfileExchanged,
    UnknownFieldTaken,
    UnknownProfileTaken,
    UnknownRuleTaken,
    /// An unknown number counts only where nothing else is refused by 1 to 12.
    UnknownAfterTheOthers,
    /// Nothing is tested where there are no lookups.
    UnknownWithoutLookupsTaken,
    /// Refused, but written.
    UnknownWritten,
    /// The gateway's number chooses the cabinet's limits, or each the other's.
    GatewayIgnored,
    ProfilesExchanged,
    /// The gateway is known by 3 too.
    ThirdProfileKnown,
    /// Some of the gateway's limits are others.
    NineLookups,
    FiveWords,
    Height4097,
    PreprocessedHeightOfTheCabinet,
    Degree127,
    /// The gateway's limits are read of the first table alone.
    FirstTableAlone,
    /// One of the profiles computes in the other field.
    OtherFieldInCabinet,
    OtherFieldInGateway,
    /// Everything is by rule 1, or by rule 2.
    RuleIgnored,
    RuleTwoAlone,
    RuleTwoRefused,
    /// Rule 2 is known by 3 too, or a rule by its least byte.
    ThirdRuleKnown,
    RuleOfOneByte,
    ProfileAndRuleExchanged,
    /// Kinds 1 and 3 see the current row, or one row ahead at most; kinds 2 and 4 see the row at the offset that is their second word.
    OffsetIgnored,
    OneRowAheadAtMost,
    OffsetOfTheNextRow,
    /// Rows are counted around the preprocessed trace's own end; no further than the last; around the end once.
    AroundItsOwnEnd,
    HeldAtTheLastRow,
    AroundOnce,
    /// An offset is taken by its two lowest bits, or not tested where nothing names its node; a word that is not used is tested as one.
    OffsetOfTwoBits,
    UnusedOffsetTaken,
    UnusedWordTested,
    /// The high half of a weight is not read, or not on a bus.
    HighHalfIgnored,
    HighHalfIgnoredOnABus,
    /// A local may weigh more than its tuples allow, a lookup on a bus as much as its tuples would.
    HeavyLocalTaken,
    TuplesOnABusCounted,
    /// A local may weigh 2^32 - 1, however many tuples it has; one without tuples may weigh nothing.
    TuplesNotCounted,
    NoTuplesNoWeight,
}
use Slip::*;

/// The slips that each function can show: what it reads, refuses and writes.
fn slips() -> Vec<Misread> {
    let ruled = ["generation", "constraints", "generation on bytes"];
    let of_tables = ["packing", "widths", "height bound", "balance", "packing on bytes", "balance on bytes"];
    let others = ["degree", "building", "terminals", "prefixes", "count from a number", "negated count"];
    let on_element = ["power", "inverse"];
    let unread = ["widths", "negated count"];
    let unwritten = ["constraints", "height bound", "terminals"];
    let mut slips = vec![];
    for function in [&ruled[..], &of_tables, &others, &on_element].concat() {
        let mut add = |shown: bool, slip: Slip| slips.extend(shown.then_some(Misread { function, slip }));
        let is = |list: &[&str]| list.contains(&function);
        add(!is(&unread), FieldIgnored);
        add(!is(&unread), FieldsExchanged);
        // The negation of a count reads neither prime nor limits: that both numbers are known is all it tests.
        add(!is(&on_element) && function != "negated count", FieldAndProfileExchanged);
        add(true, UnknownFieldTaken);
        add(!is(&on_element), UnknownProfileTaken);
        for slip in [UnknownRuleTaken, RuleIgnored, RuleTwoAlone, RuleTwoRefused, ThirdRuleKnown, RuleOfOneByte, ProfileAndRuleExchanged] {
            add(is(&ruled), slip);
        }
        // A count of a number is refused by 1 alone.
        add(function != "count from a number", UnknownAfterTheOthers);
        add(is(&ruled) || is(&of_tables), UnknownWithoutLookupsTaken);
        add(!is(&unwritten), UnknownWritten);
        let of_rows = is(&["generation", "constraints", "balance", "generation on bytes", "balance on bytes"]);
        let of_nodes = of_rows || is(&["degree", "packing", "building", "packing on bytes"]);
        let limited = of_nodes || is(&["widths", "height bound"]);
        add(limited, GatewayIgnored);
        add(limited, ProfilesExchanged);
        add(!is(&on_element), ThirdProfileKnown);
        add(limited, NineLookups);
        add(limited && function != "height bound", FiveWords);
        add(of_rows || function == "height bound", Height4097);
        add(of_rows, PreprocessedHeightOfTheCabinet);
        add(of_nodes, Degree127);
        add(is(&["widths", "height bound", "balance", "balance on bytes"]), FirstTableAlone);
        add(!is(&on_element) && !is(&unread), OtherFieldInGateway);
        // On bytes the room shows the nodes that are read: a slip in them would be found by that alone.
        for slip in [OffsetIgnored, OneRowAheadAtMost, OffsetOfTheNextRow, AroundItsOwnEnd, HeldAtTheLastRow, AroundOnce] {
            add(of_rows && !function.ends_with("bytes"), slip);
        }
        for slip in [OffsetOfTwoBits, UnusedOffsetTaken, UnusedWordTested] {
            add(of_nodes && !function.ends_with("bytes"), slip);
        }
        // So it does the lookups. Building makes its own.
        let of_weights = limited && function != "building" && !function.ends_with("bytes");
        for slip in [HighHalfIgnored, HighHalfIgnoredOnABus, HeavyLocalTaken, TuplesOnABusCounted, TuplesNotCounted, NoTuplesNoWeight] {
            add(of_weights, slip);
        }
    }
    let wrapped = [
        "wrapper: generate",
        "wrapper: generate_into",
        "wrapper: constraints",
        "wrapper: constraints_on",
        "wrapper: degree",
        "wrapper: pack",
        "wrapper: build",
        "wrapper: widths",
        "wrapper: height_bound",
        "wrapper: terminals",
        "wrapper: prefixes",
        "wrapper: balance",
        "wrapper: balance_with_seed",
        "wrapper: power",
        "wrapper: inverse",
        "wrapper: Count::from_i32",
        "wrapper: bytes::generate_into",
        "wrapper: bytes::pack",
        "wrapper: bytes::balance",
        "wrapper: bytes::balance_with_seed",
    ];
    for function in wrapped {
        let mut add = |shown: bool, slip: Slip| slips.extend(shown.then_some(Misread { function, slip }));
        let is = |list: &[&str]| list.contains(&function);
        let on_element = is(&["wrapper: power", "wrapper: inverse"]);
        let limited = !on_element && !is(&["wrapper: terminals", "wrapper: prefixes", "wrapper: Count::from_i32"]);
        let ruled = function.contains("generate") || function.contains("constraints");
        add(function != "wrapper: widths", FieldIgnored);
        add(function != "wrapper: widths", FieldsExchanged);
        add(limited, GatewayIgnored);
        add(limited, ProfilesExchanged);
        add(!on_element && function != "wrapper: widths", OtherFieldInGateway);
        add(ruled, RuleIgnored);
        add(ruled, RuleTwoAlone);
    }
    slips
}

impl Misread {
    /// A call whose lent outputs are `lent`, for these tables.
    fn call<L: Clone>(
        &self,
        function: &str,
        choices: Choices,
        tables: &[Table],
        lent: &mut L,
        call: impl Fn(Choices, &mut L) -> Answer,
    ) -> Answer {
        let Choices { field, profile, rule } = choices;
        let chosen = Chosen {
            field: Field::numbered(field).unwrap_or_default(),
            profile: Profile::numbered(profile).unwrap_or_default(),
            rule: Rule::numbered(rule).unwrap_or_default(),
        };
        let known = Choices::of(chosen);
        let unknown = || choices != known && call(choices, &mut lent.clone()).number == 1;
        let lookups = tables.iter().any(|t| !t.lookups.is_empty());
        let gateway = profile == Profile::Gateway.number();
        let known_rule = Rule::numbered(rule).is_some();
        let most = |of: fn(&Table) -> u64| tables.iter().map(of).max().unwrap_or(0);
        let within = |t: &Table| t.lookup_count() <= 8 && t.tuples.iter().all(|w| *w <= 4) && t.height.max(t.pre_height) <= 4096;
        let cabinet = of_profile(choices, Profile::Cabinet);
        let choices = match self.slip {
            _ if function != self.function => choices,
            FieldIgnored if Field::numbered(choices.field).is_some() => of_first(choices),
            FieldsExchanged if is_first(choices) => of_second(choices),
            FieldsExchanged if is_second(choices) => of_first(choices),
            FieldAndProfileExchanged => Choices { field: choices.profile, profile: choices.field, ..choices },
            UnknownFieldTaken => Choices { field: known.field, ..choices },
            UnknownProfileTaken => Choices { profile: known.profile, ..choices },
            UnknownRuleTaken => Choices { rule: known.rule, ..choices },
            UnknownAfterTheOthers if unknown() => {
                let answer = call(known, &mut lent.clone());
                return if by_refusal(answer) { answer } else { model::refused(1) };
            }
            UnknownWithoutLookupsTaken if !lookups => known,
            UnknownWritten if unknown() => {
                call(known, lent);
                return model::refused(1);
            }
            GatewayIgnored if gateway => cabinet,
            ProfilesExchanged if choices.known().is_some() => of_profile(choices, other_profile(chosen.profile)),
            ThirdProfileKnown if profile == 3 => of_profile(choices, Profile::Gateway),
            NineLookups if gateway && most(|t| t.lookup_count() as u64) == 9 => cabinet,
            FiveWords if gateway && most(|t| t.tuples.iter().copied().max().unwrap_or(0).into()) == 5 => cabinet,
            Height4097 if gateway && most(|t| t.height) == 4097 => cabinet,
            PreprocessedHeightOfTheCabinet if gateway && most(|t| t.height) <= 4096 && 4096 < most(|t| t.pre_height) => cabinet,
            Degree127 if gateway => {
                let mut written = lent.clone();
                let answer = call(choices, &mut written);
                let high = |t: &Table| model::degrees(t, 1).iter().any(|degree| 127 < *degree);
                if !(1..=3).contains(&answer.number) && tables.iter().any(high) {
                    return model::refused(4);
                }
                *lent = written;
                return answer;
            }
            FirstTableAlone if gateway && tables.first().is_some_and(within) && !tables.iter().all(within) => cabinet,
            OtherFieldInCabinet if !gateway => Choices { field: other_field(chosen.field).number(), ..choices },
            OtherFieldInGateway if gateway => Choices { field: other_field(chosen.field).number(), ..choices },
            RuleIgnored if known_rule => by_rule(choices, Rule::One),
            RuleTwoAlone if known_rule => by_rule(choices, Rule::Two),
            RuleTwoRefused if is_by_two(choices) => return model::refused(1),
            ThirdRuleKnown if rule == 3 => by_rule(choices, Rule::Two),
            RuleOfOneByte => Choices { rule: rule % 256, ..choices },
            ProfileAndRuleExchanged => Choices { profile: rule, rule: profile, ..choices },
            _ => choices,
        };
        call(choices, lent)
    }

    /// The words of lookups as a function reads their weights.
    fn weighed<'a>(&self, function: &str, lookups: &'a [u32]) -> Cow<'a, [u32]> {
        let mut read = Cow::Borrowed(lookups);
        if function != self.function {
            return read;
        }
        for (i, entry) in lookups.chunks_exact(LOOKUP_WORDS).enumerate() {
            let (on_bus, weight) = (entry[0] != 0, u64::from(entry[2]) + (u64::from(entry[8]) << 32));
            let [limit, of_tuples] = [on_bus, false].map(|on_bus| model::weight_limit(on_bus, entry[5]));
            let instead = match self.slip {
                HighHalfIgnored => entry[2].into(),
                HighHalfIgnoredOnABus if on_bus => entry[2].into(),
                HeavyLocalTaken if !on_bus => weight.min(limit),
                TuplesOnABusCounted if on_bus && weight <= of_tuples => weight.min(limit),
                TuplesNotCounted if !on_bus && u64::from(u32::MAX) < weight => u64::MAX,
                NoTuplesNoWeight if !on_bus && entry[5] == 0 && weight != 0 => u64::MAX,
                _ => continue,
            };
            let words = &mut read.to_mut()[LOOKUP_WORDS * i..];
            [words[2], words[8]] = halves(instead);
        }
        read
    }

    /// The table as a function reads its row offsets and weights; `lists` has the lookups that name its nodes.
    fn read<'a>(&self, function: &str, t: &'a Table, lists: &Table) -> Cow<'a, Table> {
        let mut read = Cow::Borrowed(t);
        if function != self.function {
            return read;
        }
        if let Cow::Owned(lookups) = self.weighed(function, &t.lookups) {
            read.to_mut().lookups = lookups;
        }
        let accepted = t.fits() && 0 < t.height && model::nodes_known(t) && model::preprocessed_enough(t);
        for i in 0..t.node_count() {
            let instead = match (self.slip, t.node(i)) {
                (OffsetIgnored, [kind @ (1 | 3), a, 1..=3]) => [kind, a, 0],
                (OneRowAheadAtMost, [kind @ (1 | 3), a, 2 | 3]) => [kind, a, 1],
                (OffsetOfTheNextRow, [kind @ (2 | 4), a, b @ 0..=3]) => [kind - 1, a, b],
                (OffsetOfTwoBits, [kind @ (1 | 3), a, b]) => [kind, a, b % 4],
                (UnusedOffsetTaken, [kind @ (1 | 3), a, _]) if !names(t, lists, i as u32) => [kind, a, 0],
                (UnusedWordTested, [0 | 2 | 4..=8 | 12, _, 4..=u32::MAX]) => [13, 0, 0],
                (AroundItsOwnEnd | HeldAtTheLastRow | AroundOnce, [1 | 3, _, 1..=3] | [2 | 4, ..]) if accepted => {
                    // The words that it sees, in one more column of main.
                    let words: Vec<u32> = (0..t.height as usize).map(|row| self.word(t, t.node(i), row)).collect();
                    let Table { main, main_width, .. } = read.to_mut();
                    let rows = main.chunks_exact(*main_width as usize).zip(words);
                    *main = rows.flat_map(|(row, word)| [row, &[word]].concat()).collect();
                    *main_width += 1;
                    [1, *main_width as u32 - 1, 0]
                }
                _ => continue,
            };
            read.to_mut().nodes[NODE_WORDS * i..NODE_WORDS * (i + 1)].copy_from_slice(&instead);
        }
        read
    }

    /// What a node that looks ahead sees on a row.
    fn word(&self, t: &Table, [kind, column, b]: [u32; 3], row: usize) -> u32 {
        let at = row + if kind % 2 == 1 { b as usize } else { 1 };
        let (words, width, own) = if kind < 3 { (&t.main, t.main_width, t.height) } else { (&t.preprocessed, t.pre_width, t.pre_height) };
        let height = t.height as usize;
        let seen = match self.slip {
            AroundItsOwnEnd => at % own as usize,
            HeldAtTheLastRow => at.min(height - 1),
            _ if at < height => at,
            _ => (at - height).min(height - 1),
        };
        words[seen * width as usize + column as usize]
    }

    /// The field, profile and rule with which a function of the wrapper is called.
    fn chosen(&self, function: &str, chosen: Chosen) -> Chosen {
        let Chosen { field, profile, .. } = chosen;
        match self.slip {
            _ if function != self.function => chosen,
            FieldIgnored => Chosen { field: Field::BabyBear, ..chosen },
            FieldsExchanged => Chosen { field: other_field(field), ..chosen },
            GatewayIgnored => Chosen { profile: Profile::Cabinet, ..chosen },
            ProfilesExchanged => Chosen { profile: other_profile(profile), ..chosen },
            OtherFieldInCabinet if profile == Profile::Cabinet => Chosen { field: other_field(field), ..chosen },
            OtherFieldInGateway if profile == Profile::Gateway => Chosen { field: other_field(field), ..chosen },
            RuleIgnored => Chosen { rule: Rule::One, ..chosen },
            RuleTwoAlone => Chosen { rule: Rule::Two, ..chosen },
            _ => chosen,
        }
    }

    fn over(&self, function: &str, tables: &[Table]) -> Vec<Table> {
        tables.iter().map(|t| t.over(self.chosen(function, t.chosen())).into_owned()).collect()
    }
}

/// Whether the lists of lookups or other nodes name a node.
fn names(t: &Table, lists: &Table, node: u32) -> bool {
    let operand = |words: &[u32]| matches!(words[0], 9..=12) && words[1..].contains(&node);
    t.nodes.chunks_exact(NODE_WORDS).any(operand)
        || [&lists.multiplicities, &lists.flags, &lists.elements].iter().any(|l| l.contains(&node))
}

impl Exports for Misread {
    fn generate(&self, choices: Choices, t: &Table, challenges: &[u32], trace: &mut [u32], terminal: &mut [u32; 5]) -> Answer {
        let (t, mut lent) = (&*self.read("generation", t, t), (trace.to_vec(), *terminal));
        let answer = self.call("generation", choices, std::slice::from_ref(t), &mut lent, |choices, (trace, terminal)| {
            RIGHT.generate(choices, t, challenges, trace, terminal)
        });
        trace.copy_from_slice(&lent.0);
        *terminal = lent.1;
        answer
    }

    fn constraints(&self, choices: Choices, t: &Table, challenges: &[u32], width: u64, trace: &[u32], terminal: [u32; 5]) -> Answer {
        let t = &*self.read("constraints", t, t);
        self.call("constraints", choices, std::slice::from_ref(t), &mut (), |choices, _| {
            RIGHT.constraints(choices, t, challenges, width, trace, terminal)
        })
    }

    fn degree(&self, choices: Choices, t: &Table, lookup: u64, transition: u32, degree: &mut u64) -> Answer {
        let t = &*self.read("degree", t, t);
        self.call("degree", choices, std::slice::from_ref(t), degree, |choices, degree| {
            RIGHT.degree(choices, t, lookup, transition, degree)
        })
    }

    fn pack(&self, choices: Choices, t: &Table, limit: u64, out: &mut Table, used: &mut [u64; 6]) -> Answer {
        let (t, mut lent) = (&*self.read("packing", t, t), (out.clone(), *used));
        let answer = self
            .call("packing", choices, std::slice::from_ref(t), &mut lent, |choices, (out, used)| RIGHT.pack(choices, t, limit, out, used));
        (*out, *used) = lent;
        answer
    }

    fn build(&self, choices: Choices, t: &Table, plan: &Plan, lookups: &mut [u32], used: &mut u64) -> Answer {
        let t = &*self.read("building", t, &plan.lists);
        // As many lookups as there are interactions, with the lists of the plan.
        let words = vec![0; LOOKUP_WORDS * plan.interactions.len() / 2];
        let built = Table { lookups: words, nodes: t.nodes.clone(), ..plan.lists.clone() };
        let mut lent = (lookups.to_vec(), *used);
        let answer =
            self.call("building", choices, &[built], &mut lent, |choices, (lookups, used)| RIGHT.build(choices, t, plan, lookups, used));
        lookups.copy_from_slice(&lent.0);
        *used = lent.1;
        answer
    }

    fn widths(&self, choices: Choices, all: &Table, sizes: &[u32], widest: &mut u64) -> Answer {
        let all = &Table { lookups: self.weighed("widths", &all.lookups).into_owned(), ..all.clone() };
        self.call("widths", choices, &model::bus_tables(all, sizes).unwrap_or_default(), widest, |choices, widest| {
            RIGHT.widths(choices, all, sizes, widest)
        })
    }

    fn height_bound(&self, choices: Choices, lookups: &[u32], counts: &[u32], heights: &[u32]) -> Answer {
        let lookups = &*self.weighed("height bound", lookups);
        let mut tables = model::weighed_tables(Chosen::default(), lookups, counts).unwrap_or_default();
        tables.iter_mut().zip(heights).for_each(|(t, height)| t.height = (*height).into());
        self.call("height bound", choices, &tables, &mut (), |choices, _| RIGHT.height_bound(choices, lookups, counts, heights))
    }

    fn terminals(&self, choices: Choices, terminals: &[u32]) -> Answer {
        self.call("terminals", choices, &[], &mut (), |choices, _| RIGHT.terminals(choices, terminals))
    }

    fn prefixes(&self, choices: Choices, alpha: &[u32], beta: &[u32], width: u64, count: u64, out: &mut [u32]) -> Answer {
        let mut lent = out.to_vec();
        let answer = self.call("prefixes", choices, &[], &mut lent, |choices, out| RIGHT.prefixes(choices, alpha, beta, width, count, out));
        out.copy_from_slice(&lent);
        answer
    }

    fn balance(&self, choices: Choices, all: &Table, sizes: &[u32], seed: u64, workspace: &mut [u32]) -> Answer {
        let mut lent = workspace.to_vec();
        let lent_tables = model::whole_tables(all, sizes);
        let tables: Vec<Table> = lent_tables.iter().flatten().map(|t| self.read("balance", t, t).into_owned()).collect();
        // What makes no tables is refused as it is.
        let (all, sizes) = match lent_tables {
            Some(_) => (&Table::joined(&tables), &tables.iter().flat_map(Table::sizes).collect::<Vec<u32>>()[..]),
            None => (all, sizes),
        };
        let answer =
            self.call("balance", choices, &tables, &mut lent, |choices, workspace| RIGHT.balance(choices, all, sizes, seed, workspace));
        workspace.copy_from_slice(&lent);
        answer
    }

    fn generate_bytes(
        &self,
        choices: Choices,
        t: &Table<u8>,
        challenges: &[u8],
        trace: &mut [u8],
        rooms: &mut Rooms,
        terminal: &mut [u32; 5],
    ) -> Answer {
        let mut lent = (trace.to_vec(), rooms.clone(), *terminal);
        let answer = self.call("generation on bytes", choices, &[t.words()], &mut lent, |choices, (trace, rooms, terminal)| {
            RIGHT.generate_bytes(choices, t, challenges, trace, rooms, terminal)
        });
        trace.copy_from_slice(&lent.0);
        (*rooms, *terminal) = (lent.1, lent.2);
        answer
    }

    fn pack_bytes(
        &self,
        choices: Choices,
        t: &Table<u8>,
        limit: u64,
        out: &mut Table<u8>,
        rooms: &mut Rooms,
        used: &mut [u64; 6],
    ) -> Answer {
        let mut lent = (out.clone(), rooms.clone(), *used);
        let answer = self.call("packing on bytes", choices, &[t.words()], &mut lent, |choices, (out, rooms, used)| {
            RIGHT.pack_bytes(choices, t, limit, out, rooms, used)
        });
        (*out, *rooms, *used) = lent;
        answer
    }

    fn balance_bytes(&self, choices: Choices, all: &Table<u8>, sizes: &[u8], seed: u64, workspace: &mut [u8], rooms: &mut Rooms) -> Answer {
        let mut lent = (workspace.to_vec(), rooms.clone());
        let tables = model::whole_tables(&all.words(), &words_of(sizes)).unwrap_or_default();
        let answer = self.call("balance on bytes", choices, &tables, &mut lent, |choices, (workspace, rooms)| {
            RIGHT.balance_bytes(choices, all, sizes, seed, workspace, rooms)
        });
        workspace.copy_from_slice(&lent.0);
        *rooms = lent.1;
        answer
    }

    fn count_from_i32(&self, choices: Choices, nodes: &mut [u32], used: u64, x: i32, count: &mut [u32; 2]) -> Answer {
        let mut lent = (nodes.to_vec(), *count);
        let answer = self.call("count from a number", choices, &[], &mut lent, |choices, (nodes, count)| {
            RIGHT.count_from_i32(choices, nodes, used, x, count)
        });
        nodes.copy_from_slice(&lent.0);
        *count = lent.1;
        answer
    }

    fn count_negated(&self, choices: Choices, nodes: &mut [u32], used: u64, of: [u32; 2], count: &mut [u32; 2]) -> Answer {
        let mut lent = (nodes.to_vec(), *count);
        let answer = self
            .call("negated count", choices, &[], &mut lent, |choices, (nodes, count)| RIGHT.count_negated(choices, nodes, used, of, count));
        nodes.copy_from_slice(&lent.0);
        *count = lent.1;
        answer
    }

    fn count_bounded(&self, node: u32, weight: u32, count: &mut [u32; 2]) {
        RIGHT.count_bounded(node, weight, count);
    }

    fn count_provided(&self, node: u32, count: &mut [u32; 2]) {
        RIGHT.count_provided(node, count);
    }

    fn row(&self, trace: &[u32], lookups: u64, height: u64, row: u64, part: &mut [u64; 2]) {
        RIGHT.row(trace, lookups, height, row, part);
    }

    fn power(&self, field: u32, a: &[u32], n: u32, out: &mut [u32]) -> u32 {
        self.element("power", field, out, |field, out| RIGHT.power(field, a, n, out))
    }

    fn inverse(&self, field: u32, a: &[u32], out: &mut [u32]) -> u32 {
        self.element("inverse", field, out, |field, out| RIGHT.inverse(field, a, out))
    }
}

impl Misread {
    /// A function of an element takes a field alone.
    fn element(&self, function: &str, field: u32, out: &mut [u32], call: impl Fn(u32, &mut [u32]) -> u32) -> u32 {
        let mut lent = out.to_vec();
        let choices = Choices { field, ..Choices::of(Field::default()) };
        let answer = self.call(function, choices, &[], &mut lent, |choices, out| model::refused(call(choices.field, out)));
        out.copy_from_slice(&lent);
        answer.number
    }
}

impl Wrapper for Misread {
    fn with(&self, t: &Table, lookups: &[Lookup]) -> Table {
        SAFE.with(t, lookups)
    }

    fn lookup_count(&self, t: &Table) -> usize {
        SAFE.lookup_count(t)
    }

    fn sizes(&self, t: &Table) -> [u32; SIZES] {
        SAFE.sizes(t)
    }

    fn generate(&self, t: &Table, challenges: &[Ext]) -> Refused<(Vec<u32>, Option<Ext>)> {
        SAFE.generate(&t.over(self.chosen("wrapper: generate", t.chosen())), challenges)
    }

    fn generate_into(&self, t: &Table, challenges: &[u32], trace: &mut [u32]) -> Refused<Option<Ext>> {
        SAFE.generate_into(&t.over(self.chosen("wrapper: generate_into", t.chosen())), challenges, trace)
    }

    fn constraints(&self, t: &Table, challenges: &[Ext], width: u64, trace: &[u32], terminal: Option<Ext>) -> Refused<()> {
        SAFE.constraints(&t.over(self.chosen("wrapper: constraints", t.chosen())), challenges, width, trace, terminal)
    }

    fn constraints_on(&self, t: &Table, challenges: &[u32], width: u64, trace: &[u32], terminal: Option<Ext>) -> Refused<()> {
        SAFE.constraints_on(&t.over(self.chosen("wrapper: constraints_on", t.chosen())), challenges, width, trace, terminal)
    }

    fn degree(&self, t: &Table, lookup: u64, transition: u32) -> Refused<u64> {
        SAFE.degree(&t.over(self.chosen("wrapper: degree", t.chosen())), lookup, transition)
    }

    fn pack(&self, t: &Table, limit: u64) -> Refused<Table> {
        let packed = SAFE.pack(&t.over(self.chosen("wrapper: pack", t.chosen())), limit)?;
        Ok(packed.over(t.chosen()).into_owned())
    }

    fn build(&self, t: &Table, interactions: &[Interaction]) -> Refused<Table> {
        let built = SAFE.build(&t.over(self.chosen("wrapper: build", t.chosen())), interactions)?;
        Ok(built.over(t.chosen()).into_owned())
    }

    fn widths(&self, tables: &[Table]) -> Refused<u64> {
        SAFE.widths(&self.over("wrapper: widths", tables))
    }

    fn height_bound(&self, tables: &[Table], heights: &[u64]) -> Refused<()> {
        SAFE.height_bound(&self.over("wrapper: height_bound", tables), heights)
    }

    fn terminals(&self, chosen: Chosen, terminals: &[Option<Ext>]) -> Refused<()> {
        SAFE.terminals(self.chosen("wrapper: terminals", chosen), terminals)
    }

    fn prefixes(&self, chosen: Chosen, alpha: Ext, beta: Ext, width: u64, count: u64) -> Refused<Vec<Ext>> {
        SAFE.prefixes(self.chosen("wrapper: prefixes", chosen), alpha, beta, width, count)
    }

    fn balance(&self, tables: &[Table], workspace: &mut [u32]) -> Refused<()> {
        SAFE.balance(&self.over("wrapper: balance", tables), workspace)
    }

    fn balance_with_seed(&self, tables: &[Table], seed: u64, workspace: &mut [u32]) -> Refused<()> {
        SAFE.balance_with_seed(&self.over("wrapper: balance_with_seed", tables), seed, workspace)
    }

    fn power(&self, field: Field, a: Ext, n: u32) -> Refused<Ext> {
        SAFE.power(self.chosen("wrapper: power", field.into()).field, a, n)
    }

    fn inverse(&self, field: Field, a: Ext) -> Refused<Ext> {
        SAFE.inverse(self.chosen("wrapper: inverse", field.into()).field, a)
    }

    fn count_bounded(&self, node: u32, weight: u32) -> [u32; 2] {
        SAFE.count_bounded(node, weight)
    }

    fn count_provided(&self, node: u32) -> [u32; 2] {
        SAFE.count_provided(node)
    }

    fn count_from_i32(&self, chosen: Chosen, nodes: &mut Vec<u32>, x: i32) -> Refused<[u32; 2]> {
        SAFE.count_from_i32(self.chosen("wrapper: Count::from_i32", chosen), nodes, x)
    }

    fn count_negated(&self, chosen: Chosen, nodes: &mut Vec<u32>, of: [u32; 2]) -> Refused<[u32; 2]> {
        SAFE.count_negated(chosen, nodes, of)
    }

    fn row(&self, trace: &[u32], lookups: u64, height: u64, row: u64) -> Vec<u32> {
        SAFE.row(trace, lookups, height, row)
    }

    fn bytes_of(&self, words: &[u32]) -> Vec<u8> {
        SAFE.bytes_of(words)
    }

    fn generate_bytes(&self, t: &Table<u8>, challenges: &[u8], trace: &mut [u8]) -> Refused<Option<Ext>> {
        let Chosen { field, profile, rule } = self.chosen("wrapper: bytes::generate_into", t.chosen());
        let t = Table { field, profile, rule, ..t.clone() };
        SAFE.generate_bytes(&t, challenges, trace)
    }

    fn pack_bytes(&self, t: &Table<u8>, limit: u64) -> Refused<Table<u8>> {
        let Chosen { field, profile, .. } = self.chosen("wrapper: bytes::pack", t.chosen());
        let packed = SAFE.pack_bytes(&Table { field, profile, ..t.clone() }, limit)?;
        Ok(Table { field: t.field, profile: t.profile, ..packed })
    }

    fn balance_bytes(&self, tables: &[Table], workspace: &mut [u8]) -> Refused<()> {
        SAFE.balance_bytes(&self.over("wrapper: bytes::balance", tables), workspace)
    }

    fn balance_bytes_with_seed(&self, tables: &[Table], seed: u64, workspace: &mut [u8]) -> Refused<()> {
        SAFE.balance_bytes_with_seed(&self.over("wrapper: bytes::balance_with_seed", tables), seed, workspace)
    }
}

/// Random cases, a third of them damaged, and those at the limits that are small.
fn cases() -> Vec<Case> {
    let mut random = Random(0xD1B54A32D192ED03);
    let random = (0..6_000).map(|i| {
        let mut case = generator::case(&mut random);
        if i % 3 == 2 {
            generator::damage(&mut random, &mut case);
        }
        case
    });
    let small = |case: &Case| case.tables.iter().all(|t| t.main.len().max(t.preprocessed.len()) <= 10_000);
    random.chain(generator::boundaries().into_iter().map(|(_, case)| case).filter(small)).collect()
}

#[test]
fn the_model_itself_is_accepted() {
    assert!(cases().iter().all(|case| compared(&Nothing, case).is_none()));
}

#[test]
fn each_mistake_is_found_and_made_small() {
    // With known choices: that one is unknown helps to find none of these.
    let known = |case: &Case| case.choices.known_with_rule().is_some();
    let cases: Vec<Case> = cases().into_iter().filter(known).collect();
    for mistake in MISTAKES {
        let found = cases.iter().find_map(|case| compared(mistake, case).map(|found| (case, found.function)));
        let (case, function) = found.unwrap_or_else(|| panic!("{mistake:?} is not found"));
        let fails = |case: &Case| compared(mistake, case).is_some_and(|other| other.function == function);
        let small = shrink(case, &fails);
        let words = small.tables.iter().map(|t| t.main.len() + t.nodes.len() + t.lookups.len()).sum::<usize>();
        // A full table of nodes is not made smaller, and eight lookups are the fewest that count as nine of eight words.
        let most = match mistake {
            NodeLimitForgotten => 3 * 1024 + 60,
            CountOfEight => 8 * LOOKUP_WORDS,
            _ => 60,
        };
        assert!(fails(&small) && words <= most, "{mistake:?} in {words} words:\n{small}");
    }
}

#[test]
fn each_misread_choice_offset_or_weight_is_found() {
    let cases = cases();
    for wrong in slips() {
        let Misread { function, slip } = wrong;
        // The cases at the limits first: some slips show there alone.
        let found = cases.iter().rev().find_map(|case| compared(&wrong, case));
        assert_eq!(found.map(|found| found.function), Some(function), "{slip:?}");
    }
}

#[test]
fn what_the_gateway_accepts_is_compared_with_the_cabinet() {
    // Ports that are right in the gateway: nothing but the second call of these cases shows that the cabinet has another field.
    let cases: Vec<Case> = cases().into_iter().filter(|case| case.chosen().profile == Profile::Gateway).collect();
    for Misread { function, .. } in slips().into_iter().filter(|wrong| wrong.slip == OtherFieldInGateway) {
        let wrong = Misread { function, slip: OtherFieldInCabinet };
        let found = cases.iter().find_map(|case| compared(&wrong, case)).map(|found| (found.function, found.text));
        assert!(found.is_some_and(|(other, text)| other == function && text.starts_with("gateway and cabinet")), "{function}");
    }
}

#[test]
fn rule_2_is_compared_with_rule_1() {
    // Ports that are right by rule 2: nothing but the second call of these cases shows that they combine by it for rule 1 too.
    let cases: Vec<Case> = cases().into_iter().filter(|case| is_by_two(case.choices)).collect();
    for function in ["generation", "constraints", "generation on bytes"] {
        let wrong = Misread { function, slip: RuleTwoAlone };
        let found = cases.iter().find_map(|case| compared(&wrong, case)).map(|found| (found.function, found.text));
        assert!(found.is_some_and(|(other, text)| other == function && text.starts_with("rule 2 and rule 1")), "{function}");
    }
}

#[test]
fn weights_are_made_small() {
    // The least weight that takes both words is left.
    let fails = |case: &Case| compared(&LosesHighHalves, case).is_some_and(|found| found.function == "packing");
    let heaviest = |case: &Case| case.tables.iter().flat_map(Table::entries).map(|entry| entry.weight).max();
    let case = cases().into_iter().find(|case| Some(1 << 32) < heaviest(case) && fails(case)).unwrap();
    let small = shrink(&case, &fails);
    assert_eq!(heaviest(&small), Some(1 << 32), "{small}");
}

#[test]
fn offsets_are_made_small() {
    // The least offset that shows the mistake is left, of a table whose own is larger.
    for (slip, larger, least) in [(OneRowAheadAtMost, 3, 2), (OffsetOfTwoBits, u32::MAX, 4)] {
        let wrong = Misread { function: "generation", slip };
        let fails = |case: &Case| compared(&wrong, case).is_some_and(|found| found.function == "generation");
        let offsets = |case: &Case| -> Vec<u32> {
            case.tables
                .iter()
                .flat_map(|t| (0..t.node_count()).map(|i| t.node(i)))
                .filter_map(|[kind, _, b]| (kind == 1).then_some(b))
                .collect()
        };
        let case = cases().into_iter().rev().find(|case| offsets(case).contains(&larger) && fails(case)).unwrap();
        let small = shrink(&case, &fails);
        assert_eq!(offsets(&small).into_iter().max(), Some(least), "{small}");
    }
}
