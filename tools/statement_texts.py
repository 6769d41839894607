"""The sentences of docs/STATEMENT.md that stand in no source: `tools/statement` puts the definitions between them."""

HEAD = """\
# What one has to believe

This page is written by `tools/statement`. It has all that the heart of `kh`'s theorem rests on: {definitions} definitions, types and
constants, {lines} lines, as they stand in the sources, each behind those that it names; and then the chief words of the premises. That the
claim holds is checked by a machine; that it says what you want is for you to see. An hour does.

## The claim

*If*

- the words of a command line mean `homology` over the field of p elements, where p is 2, 3, 5 or 7,
- the bytes that the source has left are known, are at most 65,536, and are the text of the code of an accepted diagram of at most 20
  crossings, 8 loops and 4,194,304 generators,
- neither reading nor writing failed (nor stands a count of faults at its last value, 2^64 - 1), the run does not end for want of memory, and
- the call comes back,

*then* it ends as done, and what the sink has gained, where its bytes are known, is the text of the homology table of the code modulo p,
then the line of its Jones polynomial, unnormalised, and nothing else. In the code's own words, a clause of the contract of `run`
({clause_place}), the one call that does all the program does:

{clause}
{headline}
`seen` puts together what is known of a source or a sink at one moment, `.old` before and `.new` behind the call; `result` is its status.
The conclusion is `HasWrittenHomology`, the last definition but for the premises, which come behind it. The whole clause, premises and all,
rests on {headline_definitions} definitions ({headline_lines} lines), those of this page among them; the others are read aloud in
[DEFINITIONS](DEFINITIONS.md).

*Not claimed* is that the call comes back (it may wait for other threads), that memory suffices, and how long it takes. Which sources and
sinks have known bytes, and what that comes to for the built program: [THEOREM](THEOREM.md#what-it-does-not-say).

`kh-scan` has the same clause without the limit on generators, and always comes back. It never builds the cube, but its contract does not
say so: no definition of a surface or of a scan is among the {scan_definitions} that all its promises rest on.

## How to read

- `f x y` applies `f` to `x` and `y`, before all else; with fewer arguments than it takes, `f x` is a function of the others. `λ x. e` is
  the function that takes `x` to `e`, which goes as far as its bracket. `let x = e in f` is f with e for x.
- `ℕ` are the whole numbers from 0 on, `ℤ` the integers, `pos n` the integer of `n`, `negsuc n` that of -(n + 1); `zero` is 0, and `suc n`
  is n + 1. On `ℕ` a difference below 0 is 0, `/` rounds down and `%` is the rest. `^` binds before `*`, `/` and `%`, these before `+` and
  `-`, and all of the same rank go from the left; so do `+ℤ` and `-ℤ`, sums and differences of integers. Behind these bind `∷` and `++`,
  from the right, then `≡` and its like, then `&&` and `||`.
- `[]` is the empty list, `x ∷ l` the list `l` with `x` in front, `a ++ b` one list behind another. `(a, b)` is a pair, with the parts `.0`
  and `.1`. A `record` has named parts: `x.part` is one, `record {{ part = .. }}` makes one of all its parts, and `record x {{ part = ..
  }}` is x with another part.
- `abbrev pub name : type`, and below it the value, gives a value or a statement a name. Several lines for one name are cases, by the form
  of the arguments. Behind `--` stands the same in words.
- `Bool` has `true` and `false`; `if .. then .. else`, `&&`, `||`, `not` are as everywhere. `Option T` is `None`, or `Some` of a T.
- `Type 0` is the type of types, and of statements. A record whose parts are data is a type of data; one whose parts are statements holds
  where all of them do, and where data stand among them there are such data. `A × B` is the type of pairs. Of statements `a ≡ b` says that
  a and b are equal, `a ≢ b` that they are not, `A × B` that both hold, `A ⊎ B` that one does, `A → B` that B follows from A, `A ↔ B` both
  ways, `¬ A` that A does not hold; `(x : ℕ) → B` that B holds for every x, `(x : ℕ) × B` that there is an x for which it does. `⊥` never
  holds; `IsTrue b` says that b is `true`. `{{X : Type 0}} →` is an argument that is not written.
- A few constants and types are those of the program's code, in Rust.
- *Worked* values are laws of the crate `plain_table`: the checker computes them from these definitions, and they were first computed by
  another reading of the sentences, in another language.
- *Shown by* names laws that are printed behind the definitions of a section: proved facts that speak of them. Of some only a part is
  printed, while the sentence above it speaks of the whole; words that are not on this page are in [DEFINITIONS](DEFINITIONS.md) or
  [NAMES](NAMES.md). The claim needs none of them; but that a table has *all* of the homology is `tables_have_all_rows`, and that the
  differential squares to zero `coefficients_square_to_zero`.

The definitions take these words from the standard library:
"""

PREMISES = """\
## The premises

A run has ended undisturbed, over an input that is the text of an accepted diagram within the limits:
"""

RULES = """\
(`unfoldable` is as `abbrev`.) There are nine rules, in the order in which they are tested. The sentence of each names what is told of a
code that breaks it:
"""

COMMANDS = """\
Words mean a command where each option is given at most once; without `--field` the field has 2 elements:
"""

END = """\
The nine rules in the code's words, `IsCodeRead`, which says what a text spells, `IsLine`, how words are cut into options, and what else
these name, are in [DEFINITIONS](DEFINITIONS.md).

## What is still trusted

- That the definitions are the subject's: that Bar-Natan (2002) means this complex, with these signs and degrees. The *worked* values, the
  laws, and [comparisons with other programs](KNOTS.md#beside-other-programs) are there to convince you.
- What is not printed here of the premises: the nine rules word by word, what a text spells, what words mean, and what a source and a sink
  owe (that a read or a write which fails raises the count of faults, and no other does).
- Rattle, its checker and its compiler, the C library and the system, and a few functions between them and `run`
  ([which](THEOREM.md#what-it-does-not-say)).

## What is not here

The law by which every scan counts this table, `scans_count_dimensions`, needs {more} definitions more, most of them of surfaces and of
scans. The contract of `kh-scan` rests on none of these: [DEFINITIONS](DEFINITIONS.md#surfaces) has them, from "Surfaces" on.
"""

# definitions that say what the premises are
PREMISE_WORDS = ("Seen", "next_count", "Rose", "IsUndisturbed", "generator_count", "IsAcceptedText", "IsDiagramText", "accepted", "first_fault", "direction_fault")
RULE_WORDS = "arc_range arc_times interval under over two_arc checkerboard genus components".split()
COMMAND_WORDS = ("IsCommand", "IsGiven", "NamesField", "IsFieldSize")
# laws that show that the premises are met
MET = (
    "kh_inputs::codes_of_texts_are_small crossings loops",
    "kh_types::limits input loops",
    "circle_smoothing::limits generators",
    "word_line::worked_commands alone joined",
    "pd_code::worked_texts trefoil",
    "kh_types::known_codes_are_accepted three",
    "kh_types::codes_break_these_rules_first arc_range arc_times interval under over two_arc components no_checkerboard torus",
)

CODES = "The worked values speak of these codes:"

LAWS_OF_A_FILE = "Laws that show what these mean:"

S_HEAD = """\
# What one has to believe of s

This page is written by `tools/statement`. Rasmussen's s of a code over the field of p elements is

{s}
It rests on {all} definitions. Those of the cube, of degrees, ranks and signs stand on [the first page](STATEMENT.md), with how to read them
and what the standard library's words mean. The other {definitions}, {lines} lines, are here, each behind those that it names, with their
values and the laws that speak of them. What s is in the topologist's words, by hand and with its sources: [S](S.md).

Two words more of the standard library: `get_or l k x` is the element of the list l at the place k, counted from 0, and x past the end;
`int_div_euclid` divides integers and rounds down, where the divisor is positive.
"""

S_PREMISES = """\
## The premises

The laws ask that p has inverses, as 2, 3, 5 and 7 have by `small_primes_give_fields`, and that codes are accepted, or of one link. What
these rest on is in [DEFINITIONS](DEFINITIONS.md#links).
"""

S_END = """\
## What is still trusted

That this is Rasmussen's number, with his sign, is for you to see: by the values above, by [the sources](S.md#what-is-cited-and-not-claimed),
and by [a comparison](S.md#what-is-proved). That s bounds the genus of surfaces is a theorem of his that is cited, and not proved here.
"""

TITLES = {
    "crates/kh_types/specs/Bits.antt": "Bits of numbers",
    "crates/kh_types/specs/Classes.antt": "Numbers joined into classes",
    "crates/kh_types/specs/Code.antt": "Codes, crossings, arcs",
    "crates/kh_types/specs/Circles.antt": "States and their circles",
    "crates/kh_types/specs/Components.antt": "Components, and the next arc",
    "crates/kh_types/specs/Directions.antt": "Signs of crossings",
    "crates/kh_types/specs/Generators.antt": "Generators and their degrees",
    "crates/kh_types/specs/Differential.antt": "The differential",
    "crates/kh_types/specs/Rank.antt": "Ranks of matrices modulo p",
    "crates/kh_types/src/limits.rt": "Limits",
    "crates/kh_types/specs/Table.antt": "Homology dimensions, and the table",
    "crates/kh_types/specs/StateSum.antt": "The Jones polynomial",
    "crates/kh_runs/src/status.rt": "How a run ends",
    "crates/kh_runs/specs/Homology.antt": "What is written",
    "crates/square_laws/specs/Deformed.antt": "The deformed differential",
    "crates/cell_laws/specs/Cells.antt": "Complexes over cells of any kind",
    "crates/cell_laws/specs/Filtered.antt": "Survivors",
    "crates/cell_laws/specs/DeformedCubes.antt": "The deformed cube as cells",
    "crates/link_laws/specs/CodeSurvivors.antt": "Survivors of a code",
    "crates/link_laws/specs/LastPages.antt": "The last page, and s",
}

# CRATE::FUNCTION, and the labels of some of its clauses, or all
LAWS = (
    "kh_types::classes_are_finest",
    "kh_types::classes_by_pairs named same",
    "gluing_laws::renumbering_keeps_the_sum",
    "circle_smoothing::circle_numbers_are_places same",
    "kh_types::circles_are_bounded any",
    "orient_arcs::arcs_follow_one_another_round_components stays once round",
    "braid_maker::closures_have_the_signs_of_their_letters",
    "link_algebra::mirrors_are_accepted plus",
    "kink_and_finger_laws::kinks_keep_signs plus",
    "kh_types::quantum_degrees_are_bounded outside",
    "circle_smoothing::generators_are_counted",
    "square_laws::signs_are_opposite",
    "square_laws::coefficients_lead_to_the_next_degree",
    "square_laws::coefficients_square_to_zero",
    "plain_matrix::plain_rank_is_the_rank",
    "plain_matrix::rank_counts_any_pivots pivots",
    "kh_types::tables_have_all_rows",
    "link_algebra::mirrors_are_dual",
    "link_laws::moves_keep_homology",
    "jones_sum::circles_give_binomial_coefficients",
    "jones_sum::coefficients_tell_the_polynomial same_text",
    "euler_laws::euler_characteristic_is_the_state_sum coefficient",
)

# The laws of the second page.
S_LAWS = (
    "square_laws::deformed_coefficients_at_zero_are_plain plain",
    "square_laws::deformed_coefficients_square_to_zero",
    "cell_laws::deformed_cubes_are_filtered",
    "cell_laws::complexes_are_filtered unfiltered",
    "cell_laws::survivors_fall_to_none",
    "cell_laws::survivors_of_level_cells lasting",
    "cell_laws::reductions_count_survivors",
    "link_laws::survivors_at_zero_are_homology",
    "link_laws::classes_survive_from_s_min_and_s_max",
    "link_laws::links_have_one_last_page",
    "link_laws::knots_have_one_s",
)
# The definitions that the premises of these laws name.
S_PREMISE_WORDS = ("kh_types.specs.Residues.HasInverses", "link_laws.specs.Links.AreOneLink")

WORDS = (
    ("slice_index slice_index_or", "`slice_index l k`, the element of the list l at the place k, counted from 0, and 0 past the end; \
`slice_index_or l k x` is x there"),
    ("length map filter", "`length l`; `map f l`, what f makes of each; `filter test l`, those that pass, in their order"),
    ("flat_map", "`flat_map f l`, the lists that f makes of the elements, one behind another"),
    ("fold", "`fold f a l`: begin with a, and for each element x of l from the first on go from a to `f a x`"),
    ("range_with_len", "`range_with_len a n`, the n numbers a, a + 1, .."),
    ("enumerate_from zip", "`enumerate_from n l`, each element behind its number, (n, x), (n + 1, y), ..; `zip l m`, the pairs of two lists, as \
far as both go"),
    ("list_any list_all", "`list_any test l`, whether some element passes; `list_all test l`, whether each does"),
    ("find position position_or_len", "`find test l`, `Some` of the first element that passes, or `None`; `position test l`, the same of its \
place; `position_or_len test l`, its place, or the length of l where none passes"),
    ("sum_by count_by", "`sum_by f l`, the sum of what f gives for each element; `count_by test l`, how many pass"),
    ("remove", "`remove l k`, the list without the element at the place k"),
    ("max min nat_eq nat_le nat_lt", "of two numbers the greater, the smaller; whether the first is equal to the second, at most it, less"),
    ("int_eq neg_ℤ", "whether two integers are equal; the negative of an integer"),
    ("is_some is_none unwrap_or option_map_or option_or", "`is_some o`, whether o is no `None`; `is_none o`, whether it is; `option_or o other`, \
o, or the other where o is `None`; `unwrap_or o x`, its value, or x; `option_map_or f o x`, what f \
makes of its value, or x"),
    ("codes bytes_eq", "`codes text`, the bytes of a text of ASCII, in which `\\n` is a line feed; `bytes_eq l m`, whether two lists of numbers are the same"),
    ("decimal signed_decimal", "the bytes of a number's decimal digits, the highest first; the same of an integer, with a minus if it is negative"),
    ("Appends", "`Appends before after bytes`: where the bytes before are known, those after are known too, and are these with `bytes` behind \
them; where they are not known, nothing is said"),
)

# what the list above says of notation
PLAIN_WORDS = {"Bool", "List", "Option", "not", "pos", "suc", "ℕ", "ℤ"}
