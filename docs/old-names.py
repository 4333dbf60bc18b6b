#!/usr/bin/env python3
"""Rewrites files that were written over the crates of 0.1.0, so that they name crates, modules, specifications and definitions as they are now.

old-names.py CRATE FILE..    CRATE is the crate that the files belong to, by its old name, or the name of a crate that is their own.

Files are changed in place: .antt and .rt. It prints each reference to a crate of this repository for which there is no file or no such name. What
takes other parameters than before is left to the check.
"""
import os
import re
import sys

# Crates that were joined or renamed.
CRATES = {
    'answers': 'expression',
    'batch': 'field_batch',
    'blocks': 'logup_rows',
    'builder': 'lookup_builder',
    'building': 'lookup_builder',
    'byte_balance': 'delmatik_bytes',
    'byte_doors': 'delmatik_bytes',
    'byte_generation': 'delmatik_bytes',
    'byte_packing': 'delmatik_bytes',
    'cases': 'program_cases',
    'chains': 'balance_slots',
    'column': 'logup_column',
    'constraints': 'logup_constraints',
    'counts': 'lookup_count',
    'debug': 'balance_entry',
    'decoded_packing': 'delmatik_bytes',
    'degree': 'lookup_degree',
    'delayed': 'field_batch',
    'doors': 'delmatik',
    'entries': 'balance',
    'evaluation': 'expression_eval',
    'fractions': 'theorems_logup',
    'generation': 'logup_generation',
    'groups': 'balance_groups',
    'kept': 'theorems_packing',
    'layout': 'packing_columns',
    'lines': 'logup_terms',
    'lookup_runs': 'program_cases',
    'packer': 'packing_entry',
    'packing_rooms': 'delmatik_bytes',
    'parts': 'logup_rows',
    'plan': 'packing_columns',
    'prefixes': 'lookup_challenges',
    'prepared': 'logup_column',
    'protocol': 'lookup_protocol',
    'reading': 'program_cases',
    'regrouping': 'theorems_packing',
    'rooms': 'wire',
    'rows': 'logup_rows',
    'runs': 'program_cases',
    'sample': 'program_sample',
    'screening': 'expression_checks',
    'segments': 'packing_columns',
    'several': 'balance_groups',
    'slots': 'balance_slots',
    'soundness': 'theorems_soundness',
    'telling': 'delmatik_answers',
    'terms': 'logup_terms',
    'texts': 'balance_slots',
    'visiting': 'balance_groups',
    'widths': 'lookup_buses',
    'window': 'expression_eval',
    'worked': 'theorems_examples',
}

# Modules of src/ by old crate; `crate::module` where it stands in another crate than the rest.
MODULES = {
    ('balance', 'member'): 'accumulate',
    ('builder', 'door'): 'builder',
    ('building', 'door'): 'answer',
    ('byte_balance', 'balancing'): 'check_lookups',
    ('byte_doors', 'balancing'): 'check_lookups',
    ('byte_doors', 'pack'): 'pack_same_bus',
    ('byte_doors', 'permutation'): 'generate_permutation',
    ('byte_generation', 'permutation'): 'generate_permutation',
    ('byte_packing', 'pack'): 'pack_same_bus',
    ('chains', 'enter'): 'add',
    ('column', 'fractions'): 'column',
    ('constraints', 'eval'): 'eval_all',
    ('decoded_packing', 'pack'): 'pack_same_bus',
    ('degree', 'door'): 'constraint_degree',
    ('degree', 'starts'): 'lookup::starts',
    ('delayed', 'sum'): 'dot',
    ('doors', 'balancing'): 'check_lookups',
    ('doors', 'build'): 'from_interactions',
    ('doors', 'eval'): 'eval_all',
    ('doors', 'pack'): 'pack_same_bus',
    ('doors', 'permutation'): 'generate_permutation',
    ('entries', 'place'): 'starts',
    ('generation', 'permutation'): 'generate_permutation',
    ('groups', 'group'): 'accumulate',
    ('layout', 'words'): 'layout',
    ('lines', 'row'): 'eval_row',
    ('lookup', 'entry'): 'refusals',
    ('packer', 'door'): 'pack_same_bus',
    ('packing', 'door'): 'answer',
    ('prepared', 'door'): 'refusals',
    ('rooms', 'single'): 'room',
    ('segments', 'writing'): 'lookup_lists',
    ('several', 'spans'): 'ranges',
    ('slots', 'enter'): 'slot',
    ('slots', 'find'): 'slot_find',
    ('slots', 'least'): 'group_refusal',
    ('telling', 'given'): 'terminal',
    ('texts', 'lib'): 'decimal',
    ('visiting', 'visits'): 'check',
    ('widths', 'door'): 'check_bus_widths',
    ('widths', 'seen'): 'lookup_widths',
    ('widths', 'spans'): 'bus_table',
    ('window', 'pair'): 'window',
}

# Functions that were renamed or moved.
FUNCTIONS = {
    ('balance', 'member', 'enter_member'): 'balance::accumulate::accumulate_lookup',
    ('blocks', 'block', 'block_in'): 'logup_rows::block::block',
    ('builder', 'weights', 'held'): 'expression::words::saturate_u32',
    ('chains', 'enter', 'enter'): 'balance_slots::add::add_nonzero',
    ('chains', 'enter', 'meet'): 'balance_slots::add::add',
    ('column', 'fractions', 'is_idle'): 'logup_column::column::contributes_nothing',
    ('column', 'fractions', 'share_of'): 'logup_column::column::term_of',
    ('column', 'fractions', 'write_shares'): 'logup_column::column::write_terms',
    ('constraints', 'eval', 'door_refusal'): 'logup_constraints::eval_all::trace_refusal',
    ('degree', 'tuples', 'word_at'): 'expression::words::word_at',
    ('doors', 'small', 'delmatik_height_bound'): 'delmatik::protocol::delmatik_height_bound',
    ('doors', 'small', 'delmatik_prefixes'): 'delmatik::challenges::delmatik_prefixes',
    ('doors', 'small', 'delmatik_terminals'): 'delmatik::protocol::delmatik_terminals',
    ('entries', 'place', 'place_of'): 'balance::starts::lookup_starts',
    ('entries', 'rows', 'count'): 'balance::rows::entry_count',
    ('entries', 'rows', 'each_row'): 'balance::rows::accumulate_linked',
    ('entries', 'rows', 'enter_row'): 'balance::rows::add_tuples',
    ('entries', 'rows', 'enter_rows'): 'balance::rows::accumulate_rows',
    ('entries', 'rows', 'enter_tuple'): 'balance::rows::add_tuple',
    ('entries', 'rows', 'on_row'): 'balance::rows::accumulate_row',
    ('expression', 'words', 'index'): 'expression::words::to_usize',
    ('expression', 'words', 'wide'): 'expression::words::to_u64',
    ('generation', 'permutation', 'door_refusal'): 'logup_generation::generate_permutation::trace_refusal',
    ('groups', 'buses', 'begins'): 'balance_groups::buses::starts_group',
    ('groups', 'buses', 'joins'): 'balance_groups::buses::same_group',
    ('groups', 'buses', 'leads'): 'balance_groups::buses::first_of_bus',
    ('groups', 'group', 'enter_group'): 'balance_groups::accumulate::accumulate_group',
    ('lines', 'row', 'becomes'): 'logup_terms::eval_row::next_accumulator',
    ('lookup', 'types', 'entry'): 'lookup::types::lookup_word',
    ('parts', 'trace', 'parts'): 'logup_rows::trace::all_rows',
    ('plan', 'columns', 'held'): 'expression::words::saturate_u32',
    ('rooms', 'single', 'give_back'): 'wire::words::encode',
    ('rows', 'row', 'one'): 'logup_rows::row::lookup_terms',
    ('rows', 'row', 'write_shares'): 'logup_rows::row::write_row_terms',
    ('rows', 'zeros', 'zero'): 'expression::words::clear',
    ('segments', 'writing', 'element_start'): 'lookup::starts::element_start',
    ('segments', 'writing', 'parts_total'): 'packing_columns::lookup_lists::list_total',
    ('segments', 'writing', 'start'): 'packing_columns::lookup_lists::list_start',
    ('segments', 'writing', 'write_parts'): 'packing_columns::lookup_lists::write_list',
    ('several', 'spans', 'spans_of'): 'balance_groups::ranges::table_ranges',
    ('slots', 'enter', 'clear'): 'expression::words::clear',
    ('slots', 'enter', 'word_or_zero'): 'expression::words::word_at',
    ('slots', 'least', 'judge'): 'balance_slots::group_refusal::group_refusal',
    ('telling', 'answer', 'tell'): 'delmatik_answers::answer::write_answer',
    ('telling', 'generated', 'details'): 'delmatik_answers::generated::generation_details',
    ('telling', 'generated', 'number'): 'delmatik_answers::generated::generation_number',
    ('telling', 'given', 'terminal'): 'delmatik_answers::terminal::marked_terminal',
    ('visiting', 'visits', 'visit_all'): 'balance_groups::check::check_kind',
    ('visiting', 'visits', 'visit_group'): 'balance_groups::check::check_group',
    ('visiting', 'visits', 'visit_groups'): 'balance_groups::check::check_groups',
    ('widths', 'order', 'alone'): 'lookup::buses::alone',
    ('widths', 'order', 'same_bus'): 'lookup::buses::same_bus',
    ('widths', 'order', 'same_bytes'): 'lookup::buses::same_bytes',
    ('widths', 'spans', 'size_start'): 'lookup::sizes::size_start',
}

# Structs and enums that were renamed, by old crate and module.
TYPES = {
    ('chains', 'enter', 'Entered'): 'Linked',
    ('column', 'fractions', 'Share'): 'Term',
    ('entries', 'place', 'Place'): 'LookupStarts',
    ('plan', 'columns', 'Column'): 'NextColumn',
    ('plan', 'columns', 'Open'): 'OpenColumn',
    ('segments', 'writing', 'Part'): 'LookupList',
    ('several', 'spans', 'Spans'): 'TableRanges',
    ('terms', 'compute', 'Terms'): 'Fraction',
}

# Files of specs/, by old crate.
FILES = {
    ('balance', 'Valid'): 'inner.Requires',
    ('balance', 'laws.Entering'): 'laws.Accumulate',
    ('batch', 'Quotients'): 'inner.Quotients',
    ('blocks', 'Sums'): 'inner.Sums',
    ('blocks', 'laws.Shares'): 'laws.Terms',
    ('builder', 'Asks'): 'inner.Requires',
    ('building', 'Door'): 'FromInteractions',
    ('byte_balance', 'Balancing'): 'Balance',
    ('byte_balance', 'laws.Balancing'): 'laws.Balance',
    ('byte_doors', 'Balancing'): 'Balance',
    ('byte_doors', 'Permutation'): 'Generate',
    ('byte_doors', 'laws.Balancing'): 'laws.Balance',
    ('byte_doors', 'laws.Permutation'): 'laws.Generate',
    ('byte_generation', 'Permutation'): 'Generate',
    ('byte_generation', 'laws.Permutation'): 'laws.Generate',
    ('chains', 'Chain'): 'inner.Chain',
    ('chains', 'Hash'): 'inner.Hash',
    ('column', 'Own'): 'inner.Own',
    ('column', 'Powers'): 'inner.Powers',
    ('column', 'Shares'): 'inner.Terms',
    ('column', 'laws.Shares'): 'laws.Terms',
    ('constraints', 'Entry'): 'inner.Refusals',
    ('degree', 'At'): 'inner.At',
    ('degree', 'Door'): 'ConstraintDegree',
    ('delayed', 'Sum'): 'inner.Dot',
    ('delayed', 'laws.Sum'): 'laws.Dot',
    ('entries', 'Placed'): 'inner.LookupStarts',
    ('expression', 'Valid'): 'Requires',
    ('generation', 'Entry'): 'inner.Outcome',
    ('groups', 'ByNumber'): 'inner.ByNumber',
    ('kept', 'Entries'): 'inner.Entries',
    ('layout', 'Layout'): 'inner.Layout',
    ('lines', 'Line'): 'inner.ConstraintRow',
    ('lookup', 'Entry'): 'Refusals',
    ('lookup', 'Valid'): 'Requires',
    ('packing', 'Door'): 'PackSameBus',
    ('plan', 'Asks'): 'inner.ColumnsRequires',
    ('plan', 'Columns'): 'inner.Columns',
    ('prepared', 'Entry'): 'inner.Refusals',
    ('prepared', 'Ready'): 'inner.Requires',
    ('prepared', 'Tested'): 'inner.Tested',
    ('prepared', 'laws.Entry'): 'laws.Refusals',
    ('rooms', 'Rooms'): 'Room',
    ('rooms', 'laws.Rooms'): 'laws.Room',
    ('rows', 'Shares'): 'inner.Terms',
    ('segments', 'Asks'): 'inner.LookupListsRequires',
    ('segments', 'Parts'): 'inner.LookupLists',
    ('several', 'Lowest'): 'inner.Lowest',
    ('several', 'Spans'): 'inner.Ranges',
    ('several', 'laws.Spans'): 'laws.Ranges',
    ('slots', 'Named'): 'GroupRefusal',
    ('slots', 'Work'): 'inner.Work',
    ('slots', 'laws.Entering'): 'laws.Add',
    ('slots', 'laws.Naming'): 'laws.GroupRefusal',
    ('soundness', 'Demand3'): 'Soundness',
    ('soundness', 'laws.Demand3'): 'laws.Soundness',
    ('terms', 'Constraint'): 'inner.Constraint',
    ('texts', 'Text'): 'Decimal',
    ('visiting', 'Seen'): 'inner.Visits',
    ('visiting', 'laws.Group'): 'laws.Visits',
    ('widths', 'Asks'): 'inner.Requires',
    ('widths', 'Door'): 'CheckBusWidths',
}

# Definitions and laws that were renamed, by old crate and file.
DEFINITIONS = {
    ('balance', 'Tables', 'Lists'): 'TableLists',
    ('balance', 'Tables', 'part'): 'table-part',
    ('balance', 'Valid', 'Spanned'): 'ListsCovered',
    ('balance', 'Valid', 'Whole'): 'TablesTested',
    ('balance', 'laws.Entering', 'parted'): 'starts-within',
    ('balance', 'laws.Entering', 'placed-is'): 'entries-from-is',
    ('balance', 'laws.Whole', 'spanned'): 'lists-covered',
    ('builder', 'Asks', 'Sized'): 'InteractionsSized',
    ('building', 'Door', 'Given'): 'Interactions',
    ('building', 'Door', 'lent-given'): 'lent-interactions',
    ('chains', 'Chain', 'Ready'): 'ChainsLinked',
    ('column', 'Own', 'Able'): 'FieldValues',
    ('column', 'Own', 'part'): 'slice',
    ('column', 'Shares', 'idle'): 'contributes-nothing',
    ('column', 'Shares', 'mark'): 'exclusive-lookup',
    ('column', 'Shares', 'share'): 'term',
    ('column', 'Shares', 'share-denominator'): 'term-denominator',
    ('column', 'Shares', 'share-multiplicity'): 'term-multiplicity',
    ('column', 'laws.Parts', 'own-entry'): 'own-word',
    ('column', 'laws.Shares', 'other-idle'): 'other-nothing',
    ('column', 'laws.Shares', 'shares-fault'): 'terms-fault',
    ('column', 'laws.Shares', 'shares-sum'): 'terms-sum',
    ('constraints', 'Entry', 'door-tests'): 'trace-tests',
    ('degree', 'At', 'Few'): 'FewUpTo',
    ('entries', 'Placed', 'Parted'): 'StartsWithin',
    ('entries', 'Placed', 'place-at'): 'lookup-starts-at',
    ('entries', 'Placed', 'placed-count'): 'count-from',
    ('entries', 'Placed', 'placed-entries'): 'entries-from',
    ('entries', 'Placed', 'placed-entry'): 'entry-from',
    ('entries', 'Placed', 'placed-nodes'): 'nodes-from',
    ('expression', 'Valid', 'Ready'): 'NodesEvaluable',
    ('field', 'Ext', 'ws'): 'ext-words',
    ('groups', 'ByNumber', 'Named'): 'GroupNames',
    ('groups', 'ByNumber', 'begins'): 'starts-group',
    ('groups', 'ByNumber', 'joins'): 'same-group',
    ('groups', 'ByNumber', 'leads'): 'first-of-bus',
    ('groups', 'laws.Groups', 'bus-lead'): 'bus-first',
    ('groups', 'laws.Groups', 'joins-bus'): 'same-group-bus',
    ('groups', 'laws.Groups', 'joins-local'): 'same-group-local',
    ('kept', 'Entries', 'Sound'): 'Aligned',
    ('layout', 'Layout', 'Numbered'): 'PlanNumbers',
    ('layout', 'Layout', 'Roomy'): 'OutputsHold',
    ('layout', 'Layout', 'Whole'): 'ListsExact',
    ('layout', 'Layout', 'spans'): 'list-totals',
    ('lines', 'Line', 'Traced'): 'TraceInputs',
    ('lines', 'Line', 'becomes'): 'next-accumulator',
    ('lines', 'Line', 'end-verdict'): 'accumulator-verdict',
    ('lines', 'Line', 'line-sum'): 'fractions-sum',
    ('lines', 'Line', 'line-verdict'): 'fractions-verdict',
    ('lookup', 'Lookups', 'entry'): 'lookup-word',
    ('packing', 'Door', 'alone'): 'single-table',
    ('plan', 'Asks', 'Low'): 'DegreesSmall',
    ('plan', 'Asks', 'Ready'): 'PlanInputs',
    ('plan', 'Asks', 'Taken'): 'ColumnTaken',
    ('plan', 'Asks', 'Within'): 'ColumnWithin',
    ('plan', 'Columns', 'Source'): 'PlanSource',
    ('plan', 'Columns', 'held'): 'saturated',
    ('plan', 'Columns', 'source'): 'plan-source',
    ('prepared', 'Ready', 'Lists'): 'LookupLists',
    ('prepared', 'Ready', 'Powered'): 'PowersTable',
    ('prepared', 'Ready', 'Ready'): 'ColumnInputs',
    ('prepared', 'Ready', 'Spans'): 'StartsWithin',
    ('prepared', 'Ready', 'Stands'): 'StartsOf',
    ('prepared', 'laws.Lookup', 'able'): 'field-values',
    ('protocol', 'laws.Height', 'Seen'): 'SmallSoFar',
    ('protocol', 'laws.Height', 'Starting'): 'StartOf',
    ('protocol', 'laws.Height', 'Weighed'): 'WeightSoFar',
    ('protocol', 'laws.Height', 'part-is'): 'lookups-are',
    ('protocol', 'laws.Height', 'placed'): 'few-tested',
    ('protocol', 'laws.Height', 'seen-all'): 'small-all',
    ('protocol', 'laws.Height', 'seen-next'): 'small-next',
    ('protocol', 'laws.Height', 'seen-none'): 'small-none',
    ('protocol', 'laws.Height', 'tabled'): 'counted-tested',
    ('protocol', 'laws.Height', 'weighed-all'): 'weight-all',
    ('protocol', 'laws.Height', 'weighed-next'): 'weight-next',
    ('protocol', 'laws.Height', 'weighed-none'): 'weight-none',
    ('regrouping', 'Same', 'Packing'): 'IsPacked',
    ('regrouping', 'Same', 'Roomy'): 'SlotsSuffice',
    ('regrouping', 'Same', 'own'): 'members-of',
    ('rows', 'laws.Lengths', 'share-four'): 'term-four',
    ('segments', 'Asks', 'Numbers'): 'LookupNumbers',
    ('segments', 'Asks', 'Parted'): 'FewTuples',
    ('segments', 'Parts', 'part-at'): 'list-part',
    ('segments', 'Parts', 'parts-of'): 'list-parts',
    ('segments', 'Parts', 'span-at'): 'list-length',
    ('segments', 'Parts', 'start-at'): 'list-start',
    ('several', 'Spans', 'spans-at'): 'table-ranges-at',
    ('slots', 'Slots', 'enter'): 'add-nonzero',
    ('slots', 'Slots', 'meet'): 'add',
    ('slots', 'Work', 'enter-at'): 'add-nonzero-at',
    ('slots', 'Work', 'judged'): 'work-refusal',
    ('slots', 'Work', 'named'): 'slot-refusal',
    ('slots', 'Workspace', 'workspace'): 'workspace-of',
    ('slots', 'laws.Entering', 'enter-fit'): 'add-nonzero-fit',
    ('slots', 'laws.Entering', 'enter-is'): 'add-nonzero-is',
    ('slots', 'laws.Entering', 'enter-longer'): 'add-nonzero-longer',
    ('slots', 'laws.Entering', 'meet-fit'): 'add-fit',
    ('slots', 'laws.Entering', 'meet-full'): 'add-full',
    ('slots', 'laws.Entering', 'meet-is'): 'add-is',
    ('slots', 'laws.Naming', 'judged-is'): 'work-refusal-is',
    ('slots', 'laws.Nets', 'enter-absent'): 'add-nonzero-absent',
    ('slots', 'laws.Nets', 'enter-held'): 'add-nonzero-held',
    ('slots', 'laws.Nets', 'enter-sound'): 'add-nonzero-sound',
    ('slots', 'laws.Nets', 'enter-tuples'): 'add-nonzero-tuples',
    ('slots', 'laws.Nets', 'meet-held'): 'add-held',
    ('slots', 'laws.Nets', 'meet-sound'): 'add-sound',
    ('slots', 'laws.Nets', 'meet-tuples'): 'add-tuples',
    ('slots', 'laws.Room', 'enter-roomy'): 'add-nonzero-roomy',
    ('soundness', 'Demand3', 'Balanced'): 'TerminalsDetermineLedgers',
    ('soundness', 'Demand3', 'Demand3'): 'LogUpSoundness',
    ('soundness', 'laws.Demand3', 'demand-3'): 'terminals-determine-ledgers',
    ('soundness', 'laws.Demand3', 'demand-3-cabinet'): 'logup-soundness',
    ('telling', 'Generation', 'answer-details'): 'generation-details',
    ('telling', 'Generation', 'answer-number'): 'generation-number',
    ('telling', 'Generation', 'answer-terminal'): 'generation-terminal',
    ('terms', 'Constraint', 'Chosen'): 'LookupFraction',
    ('visiting', 'Seen', 'after'): 'group-visited',
    ('visiting', 'Seen', 'seen'): 'visited-of',
    ('widths', 'Asks', 'Listed'): 'BusLists',
    ('widths', 'Asks', 'Spanned'): 'BusListsCover',
    ('widths', 'Asks', 'Tabled'): 'BusTablesFit',
    ('widths', 'Asks', 'seen'): 'width-option',
    ('widths', 'Door', 'Lists'): 'BusTables',
}

# Definitions that stand in another file than the rest of theirs: crate, file, name.
MOVED = {
    ('balance', 'Valid', 'lent-lists'): ('balance', 'Tables', 'lent-tables'),
    ('constraints', 'Entry', 'terminal-of'): ('logup_constraints', 'Refusals', 'terminal-of'),
    ('fractions', 'Distinct', 'Apart'): ('theorems_logup', 'inner.Distinct', 'Apart'),
    ('fractions', 'Sums', 'product-to'): ('theorems_logup', 'inner.Products', 'product-to'),
    ('generation', 'Entry', 'door-tests'): ('logup_generation', 'inner.Refusals', 'trace-tests'),
    ('kept', 'Entries', 'packed-table'): ('theorems_packing', 'Packed', 'packed-table'),
    ('prefixes', 'Prefixes', 'Writable'): ('lookup_challenges', 'inner.Requires', 'Writable'),
    ('protocol', 'Height', 'table-start'): ('lookup', 'Sizes', 'size-start'),
    ('protocol', 'laws.Height', 'Placed'): ('lookup_protocol', 'inner.Requires', 'FewLookups'),
    ('protocol', 'laws.Height', 'Tabled'): ('lookup_protocol', 'inner.Requires', 'LookupsCounted'),
    ('widths', 'Asks', 'Named'): ('lookup', 'Requires', 'BusNames'),
    ('widths', 'Asks', 'bare'): ('lookup', 'Lookups', 'bus-lookups'),
    ('widths', 'Asks', 'lent-lists'): ('lookup_buses', 'CheckBusWidths', 'lent-bus-tables'),
    ('widths', 'Door', 'size'): ('lookup', 'Sizes', 'size'),
    ('widths', 'Door', 'size-start'): ('lookup', 'Sizes', 'size-start'),
    ('widths', 'Door', 'table-count'): ('lookup', 'Sizes', 'table-count'),
    ('widths', 'Order', 'alone-at'): ('lookup', 'Buses', 'alone-at'),
    ('widths', 'Order', 'name-at'): ('lookup', 'Buses', 'name-at'),
    ('widths', 'Order', 'same-bus'): ('lookup', 'Buses', 'same-bus'),
}

ROOT = os.path.join(os.path.dirname(os.path.abspath(__file__)), '..', 'crates')
REFERENCE = re.compile(
    r'^(?P<head>\s*(?:pub )?(?:ghost )?use )Rattle·(?P<crate>[a-z_0-9]+)(?:·(?:specs|proofs))?\.(?P<kind>specs|proofs)\.'
    r'(?P<path>[A-Za-z0-9_+-]+(?:\.[A-Za-z0-9_+-]+)*)(?:\.\{(?P<names>[^}]*)\})?(?P<tail>.*)$',
    re.M)
USE = re.compile(r'^(?P<head>\s*(?:pub )?use )(?P<crate>[a-z_0-9]+)::(?P<path>[A-Za-z0-9_:]+);', re.M)


def new_crate(crate):
    return CRATES.get(crate, crate)


def new_module(crate, module):
    """The crate and the module, by their new names."""
    new = MODULES.get((crate, module), module)
    return tuple(new.split('::')) if '::' in new else (new_crate(crate), new)


class Rewriting:
    def __init__(self, own):
        self.own = own
        self.names = {}

    def rename(self, old, new):
        if old != new:
            self.names[old] = new

    def place(self, crate, path, name):
        """Where a name of a specification stands now: crate, path, name."""
        parts = path.split('.')
        if parts[0] == 'declared' and len(parts) > 1:
            to, module = new_module(crate, parts[1])
            parts[1:3] = [module] + [TYPES.get((crate, parts[1], t), t) for t in parts[2:3]]
            return to, '.'.join(parts), TYPES.get((crate, path.split('.')[1], name), name)
        if (crate, path, name) in MOVED:
            return MOVED[(crate, path, name)]
        return new_crate(crate), FILES.get((crate, path), path), DEFINITIONS.get((crate, path, name), name)

    def proof(self, crate, path):
        parts = path.split('.')
        if len(parts) > 1 and (crate, parts[0], parts[1].lstrip('+')) in FUNCTIONS:
            to, module, function = FUNCTIONS[(crate, parts[0], parts[1].lstrip('+'))].split('::')
            parts[1] = '+' * parts[1].startswith('+') + function
        else:
            to, module = new_module(crate, parts[0])
        return to, '.'.join([module] + parts[1:])

    def line(self, head, crate, kind, path, names, tail):
        mark = '·' + kind if crate == new_crate(self.own) else ''
        cited = '' if names is None else '.{' + ', '.join(names) + '}'
        return f'{head}Rattle·{crate}{mark}.{kind}.{path}{cited}{tail}'

    def reference(self, match):
        head, crate, kind, path, names, tail = match.group('head', 'crate', 'kind', 'path', 'names', 'tail')
        listed = None if names is None else [n for n in re.split(r',\s*', names.strip()) if n]
        if kind == 'proofs':
            to, path = self.proof(crate, path)
            return self.line(head, to, kind, path, listed, tail)
        if not listed:
            to, path, _ = self.place(crate, path, '')
            return self.line(head, to, kind, path, listed, tail)
        # a line for each file in which the names stand now
        lines = {}
        for cited in listed:
            name, mark, alias = cited.partition(' as ')
            to, at, new = self.place(crate, path, name)
            if not mark:
                self.rename(name, new)
            lines.setdefault((to, at), []).append(new + mark + alias)
        return '\n'.join(self.line(head, to, kind, at, cited, tail) for (to, at), cited in lines.items())

    def use(self, match):
        head, crate, path = match.group('head', 'crate', 'path')
        parts = path.split('::')
        old = self.own if crate == 'crate' else crate
        if len(parts) == 1 and (old, 'lib') in MODULES:
            parts.insert(0, 'lib')
        if len(parts) > 1 and (old, parts[0], parts[1]) in FUNCTIONS:
            to, module, function = FUNCTIONS[(old, parts[0], parts[1])].split('::')
            self.rename(parts[1], function)
            parts[:2] = [module, function]
        else:
            to, module = new_module(old, parts[0])
            for i in range(1, len(parts)):
                new = TYPES.get((old, parts[0], parts[i]), parts[i])
                self.rename(parts[i], new)
                parts[i] = new
            parts[0] = module
        return f'{head}{"crate" if to == new_crate(self.own) else to}::' + '::'.join(parts) + ';'

    def text(self, text):
        text = REFERENCE.sub(self.reference, text)
        text = USE.sub(self.use, text)
        if self.names:
            # all at once, so that no new name is taken for an old one; what the `use` lines cite is renamed already
            old = re.compile(r'(?<![\w.«-])(' + '|'.join(sorted(map(re.escape, self.names), key=len, reverse=True)) + r')(?![\w»-])')
            text = '\n'.join(
                line if re.match(r'\s*(?:pub )?(?:ghost )?use |\s*(?:--|//)', line) else old.sub(lambda m: self.names[m.group(1)], line)
                for line in text.split('\n'))
        return text


def missing(text):
    """The references to crates of this repository that name nothing there."""
    for match in REFERENCE.finditer(text):
        crate, kind, path, names = match.group('crate', 'kind', 'path', 'names')
        if kind != 'specs' or not os.path.isdir(os.path.join(ROOT, crate)):
            continue
        parts = path.split('.')
        if parts[0] == 'declared':
            file = os.path.join(ROOT, crate, 'src', parts[1] + '.rt')
        else:
            file = os.path.join(ROOT, crate, 'specs', *parts) + '.antt'
        if not os.path.exists(file):
            yield f'Rattle·{crate}.{kind}.{path}'
            continue
        with open(file, encoding='utf-8') as opened:
            words = set(re.findall(r'[^\s:(){},;]+', opened.read()))
        for name in re.split(r',\s*', (names or '').strip()):
            if name and name.partition(' as ')[0] not in words:
                yield f'Rattle·{crate}.{kind}.{path}.{{{name}}}'


def main():
    if len(sys.argv) < 3:
        sys.exit(__doc__)
    for name in sys.argv[2:]:
        with open(name, encoding='utf-8') as file:
            text = Rewriting(sys.argv[1]).text(file.read())
        with open(name, 'w', encoding='utf-8') as file:
            file.write(text)
        for reference in missing(text):
            print(f'{name}: {reference}')


main()
