"""Wrong copies for the lock of the statements: each must be told by the name of what moved. statements_edits.py tries them."""
import re
from pathlib import Path

import lock

ROOT = Path(__file__).resolve().parent.parent
LOCK = lock.LOCK
CLOSED = "crates/history/specs/Closed.antt"
CLAIM = "crates/history/specs/Claim.antt"
THEOREM = "crates/history/proofs/Theorem.antt"
EARLIER = "crates/client/src/earlier.rt"
KEEPER = "crates/keeper/src/lib.rt"
LOG = "crates/sector_log/src/lib.rt"
RECORDER = "crates/recorder/src/lib.rt"
OWN = "crates/disc/src/own.rt"
RUNS = "crates/le/src/run.rt"
VIEWER = "crates/viewer/src/lib.rt"
STARRED = "crates/bench/proofs/Starred.antt"
LISTS = "crates/cuts/proofs/Lists.antt"
PAGE = "crates/delivery/specs/Delivery.antt"
SIX_LINKS = "tests/must-fail/six_links.edit"


def line_of(file, start):
    """The one line of a file that begins so, with its end."""
    found = [line for line in (ROOT / file).read_text().splitlines(keepends=True) if line.startswith(start)]
    assert len(found) == 1, (file, start, len(found))
    return found[0]


def place_of(text, name):
    """Where a function's name stands, behind the word that declares it."""
    return re.search(rf"\bfn {name}\b", text).start()


def clause_of(file, name, number=0):
    """A clause of a function, the line that it stands on."""
    text = (ROOT / file).read_text()
    return [line for line in text[place_of(text, name):].splitlines(keepends=True) if line.lstrip().startswith("ensures")][number]


def clause_less(file, name, number=0):
    """The file's text from the function's name to that clause, with it and without."""
    text, clause = (ROOT / file).read_text(), clause_of(file, name, number)
    start = place_of(text, name)
    end = text.index(clause, start) + len(clause)
    return text[start:end], text[start:end - len(clause)], clause


def head_of(file, name):
    """The file's text from the function's name to the line of its result, with that."""
    text = (ROOT / file).read_text()
    start = place_of(text, name)
    return text[start:text.index("\n", text.index(") -> ", start)) + 1]


def brought_otherwise(line, name):
    """A `ghost use` of the name among others, and the same with the name from another module."""
    less = re.sub(rf"(?<=[{{ ]){name}, |, {name}(?=\}})", "", line)
    assert less != line, (line, name)
    return line, f"{less}ghost use Rattle.recorder.specs.Weaker.{{{name}}};\n"


COUNTS, LINES = lock.read(ROOT)
ROWS, LISTS_WORKED, EDITS = (COUNTS[what] for what in ("worked rows", "worked lists", "edits"))
TURNED_AWAY = f"{LINES[('history', 'specs/Closed.TurnedAway')]} history specs/Closed.TurnedAway\n"
WRITE_CUT, WRITE_BARE, _ = clause_less(EARLIER, "after_cut")
CRASH, CRASH_BARE, CRASH_CLAUSE = clause_less(EARLIER, "after_crash", 1)
# The clause's name, as the lock has it.
CRASH_NAME = CRASH_CLAUSE.split("{")[0].strip()
LISTED, LISTED_BARE, _ = clause_less("crates/listing/src/list.rt", "list")
MOUNTED, MOUNTED_BARE, MOUNTED_CLAUSE = clause_less(LOG, "mount")
VIEWED = head_of(VIEWER, "view")
KEEPING, KEEPING_ELSEWHERE = brought_otherwise(line_of(KEEPER, "ghost use Rattle.roles.specs.Keeping."), "after_roles")
REFUSED, REFUSED_ELSEWHERE = brought_otherwise(line_of(RECORDER, "ghost use Rattle.recorder.specs.Refused."), "walk_refused")
TABLES, TABLES_ELSEWHERE = brought_otherwise(line_of(OWN, "ghost use Rattle.vat.specs.Table."), "laid")
FROM_STOP = "recorder src/lib.impl From<Stop> for Refusal"
GIVEN = line_of(RECORDER, "    ghost from_gives")
HIGH = line_of(OWN, "    ghost high: ")
OWN_BYTES = "ghost use Rattle.disc.specs.Own.{own_bytes};"
ENCLOSED, ENCLOSED_BARE, ENCLOSED_CLAUSE = clause_less(OWN, "enclosed")
EVERY, EVERY_BARE, _ = clause_less(RUNS, "every")
CLEAR, CLEAR_BARE, CLEAR_CLAUSE = clause_less(RUNS, "clear")
ROW = "    ∷ lengths-of 0 458 1868 2028\n"
SIX = line_of(SIX_LINKS, "new: ")
SHOWN = "pub shown-no-table-yet : Begun 17 no-table-yet []\nunfolding works no-table-yet\nshown-no-table-yet = works-so (blank 17) begin begun_history no-table-yet [] tt\n"
EMPTY = "    ensures { result ≡ result }\n"

# What is wrong: the file, text that stands once in it (none: the whole file), what stands there instead (none: the file is gone), and what is told.
WRONG = {
    # a definition or a claim
    "turned_away_by_any_refusal": (CLOSED, "(n ≤ 5)", "(n ≤ 20)", "history specs/Closed.TurnedAway moved"),
    "a_torn_sector_of_kind_2": ("crates/disc/specs/Disc.antt", "set d.kinds b 3 }", "set d.kinds b 2 }", "disc specs/Disc.put moved"),
    "a_closed_disc_not_said_to_mount_clean": (CLOSED, line_of(CLOSED, "  pub clean"), "", "history specs/Closed.ClosedShowing.clean went"),
    "a_premise_that_never_holds": ("crates/client/specs/Day.antt", "pub record CutBehind", "pub record Never : Type 0 where\n  pub never : ⊥\n\npub record CutBehind",
        "client specs/Day.Never.never is new"),
    "the_claim_for_look_back_0": (CLAIM, "(k : ℕ) → k < length h.pages", "(k : ℕ) → k ≡ 0 → k < length h.pages", "history specs/Claim.Claim.looks moved"),
    "a_constructor_more": ("crates/recorder/specs/Calls.antt", "  release : ℕ → Call\n", "  release : ℕ → Call\n  erase : Call\n", "recorder specs/Calls.Call.erase is new"),
    "an_outcome_from_elsewhere": (CLAIM, "use Rattle.recorder.specs.Refusals.{outcome}", "use Rattle.recorder.specs.Weaker.{outcome}", "history specs/Claim.Mounts moved"),
    "an_order_from_elsewhere": (CLAIM, "◌<◌, List", "List", "history specs/Claim.Claim.looks moved"),
    "a_struct_with_another_mark": ("crates/extent/src/lib.rt", "pub struct Extent {", "#[derive(Debug)]\npub struct Extent {", "extent src/lib.Extent moved"),
    "a_struct_with_a_field_of_a_ghost": ("crates/extent/src/lib.rt", "    pub location: u32,", "    pub location: u32,\n    ghost first: { ℕ },", "extent src/lib.Extent moved"),
    "a_struct_that_is_seen_as_something_else": ("crates/extent/src/lib.rt", "pub struct Extent {", "impl Model for Extent {\n    ghost Value = { ℕ };\n}\n\npub struct Extent {",
        "extent src/lib.impl Model for Extent.Value is new"),
    "a_struct_declared_twice": ("crates/extent/src/lib.rt", "pub struct Extent {", "pub struct Extent {}\n\npub struct Extent {", "crates/extent/src/lib.rt: Extent: is declared twice"),
    "a_struct_of_narrower_numbers": ("crates/extent/src/lib.rt", "    pub location: u32,", "    pub location: u16,", "extent src/lib.Extent moved"),
    "a_refusal_of_another_number": (RECORDER, "    SessionClosed = 17,", "    SessionClosed = 21,", "recorder src/lib.Refusal moved"),
    "two_refusals_that_exchange_their_numbers": (RECORDER, "    ChainBroken = 8,\n    ChainEnded = 9,\n", "    ChainEnded = 8,\n    ChainBroken = 9,\n", "recorder src/lib.Refusal moved"),
    "a_kind_of_another_number": ("crates/disc/src/lib.rt", "    Link = 2,", "    Link = 3,", "disc src/lib.Kind moved"),
    # what a struct's facts, an impl and its methods state
    "a_stop_that_becomes_any_refusal": (RECORDER, GIVEN, "    ghost from_gives = { λ s r. r ≡ r };\n", f"{FROM_STOP}.from_gives moved"),
    "a_stop_of_which_nothing_is_given": (RECORDER, GIVEN, "", f"{FROM_STOP}.from_gives went"),
    "a_stop_that_becomes_a_refusal_from_elsewhere": (RECORDER, REFUSED, REFUSED_ELSEWHERE, f"{FROM_STOP}.from_gives moved"),
    "a_stop_that_becomes_something_else": (RECORDER, "impl From<Stop> for Refusal {", "impl From<Stop> for Told {", f"{FROM_STOP} went"),
    "a_number_of_something_else": (RECORDER, "impl Refusal {", "impl Told {", "recorder src/lib.impl Refusal went"),
    "an_own_table_of_which_a_fact_is_dropped": (OWN, line_of(OWN, "    ghost short: "), "", "disc src/own.OwnTable.short went"),
    "an_own_table_of_which_a_fact_says_nothing": (OWN, HIGH, "    ghost high: { b ≤ b },\n", "disc src/own.OwnTable.high moved"),
    "an_own_table_of_which_a_fact_is_from_elsewhere": (OWN, TABLES, TABLES_ELSEWHERE, "disc src/own.OwnTable.is_laid moved"),
    "an_own_table_with_a_fact_more": (OWN, HIGH, HIGH + "    pub ghost none: { b ≡ 0 },\n", "disc src/own.OwnTable.none is new"),
    "an_own_table_of_which_enclosed_promises_nothing": (OWN, ENCLOSED, ENCLOSED_BARE, "disc src/own.enclosed ensures went"),
    "an_own_table_of_which_enclosed_asks_for_bytes": (OWN, ENCLOSED, ENCLOSED_BARE + "        requires { 0 < self.now.total }\n" + ENCLOSED_CLAUSE,
        "disc src/own.enclosed requires is new"),
    "an_own_table_with_bytes_from_elsewhere": (OWN, OWN_BYTES, "ghost use Rattle.disc.specs.Weaker.{own_bytes};", "disc src/own.enclosed ensures moved"),
    "an_own_table_with_other_bytes_too": (OWN, OWN_BYTES, OWN_BYTES + "\n    ghost use Rattle.disc.specs.Weaker.{own_bytes};", "disc src/own.enclosed ensures moved"),
    "an_own_table_with_renamed_bytes": (OWN, OWN_BYTES, OWN_BYTES.replace("own_bytes", "weaker as own_bytes"),
        "disc/src/own.rt: `ghost use Rattle.disc.specs.Own.{weaker as own_bytes}` is of no known form"),
    "an_own_table_with_a_module_taken_whole": (OWN, OWN_BYTES, "ghost use Rattle.disc.specs.Own;", "disc/src/own.rt: `ghost use Rattle.disc.specs.Own` is of no known form"),
    "an_own_table_with_a_module_taken_by_a_star": (OWN, OWN_BYTES, OWN_BYTES.replace("own_bytes", "own_bytes, *"),
        "disc/src/own.rt: `ghost use Rattle.disc.specs.Own.{own_bytes, *}` is of no known form"),
    "an_own_table_for_one_lifetime": (OWN, "impl<'a> OwnTable<'a> {", "impl OwnTable<'static> {", "disc src/own.impl<'a> OwnTable<'a> went"),
    # a theorem
    "a_theorem_deleted": (THEOREM, "pub save-then-mount : ", "save-and-mount : ", "history proofs/Theorem.save-then-mount went"),
    "a_theorem_that_is_named_and_gone": (THEOREM, "pub save-then-mount : ", "save-and-mount : ", "proofs/Theorem.antt: has no theorem save-then-mount, which tests/lock.py names"),
    "a_theorem_of_commits_alone": (THEOREM, "pub save-then-mount : (d : Disc) (l : List ℕ) → AllBytes l → (c : Call) → saves c ≡ true",
        "pub save-then-mount : (d : Disc) (l : List ℕ) → AllBytes l → (c : Call) → c ≡ commit None → saves c ≡ true", "history proofs/Theorem.save-then-mount moved"),
    "what_a_theorem_cites": (THEOREM, line_of(THEOREM, "  pub clean : "), "", "history proofs/Theorem.Remounted.clean went"),
    "a_claim_gone_from_the_page": (PAGE, "  pub power-cuts : PowerCuts\n", "", "delivery specs/Delivery.Delivery.power-cuts went"),
    "a_claim_of_another_type_on_the_page": (PAGE, "  pub never-twice : WriteOnce\n", "  pub never-twice : RecordedSame\n", "delivery specs/Delivery.Delivery.never-twice moved"),
    "another_record_proved_for_the_page": ("crates/delivery/proofs/Delivered.antt", "pub delivered : Delivery\n", "pub delivered : Unit\n", "delivery proofs/Delivered.delivered moved"),
    # a contract
    "after_cut_promises_nothing": (EARLIER, WRITE_CUT, WRITE_BARE, "client src/earlier.after_cut ensures went"),
    "after_cut_promises_an_empty_word": (EARLIER, WRITE_CUT, WRITE_BARE + EMPTY, "client src/earlier.after_cut ensures moved"),
    "after_crash_promises_less": (EARLIER, CRASH, CRASH_BARE, f"client src/earlier.after_crash {CRASH_NAME} went"),
    "after_crash_promises_under_another_name": (EARLIER, CRASH, CRASH_BARE + CRASH_CLAUSE.replace(CRASH_NAME, "ensures less"), "client src/earlier.after_crash ensures less is new"),
    "after_crash_promises_with_a_star": (EARLIER, CRASH, CRASH_BARE + CRASH_CLAUSE.replace("ensures", "ensures*"), f"client src/earlier.after_crash {CRASH_NAME} went"),
    "after_crash_promises_behind_a_word_that_is_not_known": (EARLIER, CRASH, CRASH_BARE + CRASH_CLAUSE.replace("ensures", "promises"),
        "client/src/earlier.rt: after_crash: something else than `requires {..}` and `ensures {..}`"),
    "the_listing_promises_nothing": ("crates/listing/src/list.rt", LISTED, LISTED_BARE + EMPTY, "listing src/list.list ensures moved"),
    "mount_of_the_log_asks_for_31_sectors": (LOG, MOUNTED, MOUNTED_BARE + "    requires { length kinds.now ≡ 31 }\n" + MOUNTED_CLAUSE, "sector_log src/lib.mount requires is new"),
    "the_keeper_takes_roles_from_elsewhere": (KEEPER, KEEPING, KEEPING_ELSEWHERE, "keeper src/lib.write ensures moved"),
    "the_keeper_renames_what_it_takes": (KEEPER, KEEPING, KEEPING.replace("after_roles", "weaker as after_roles"),
        "keeper/src/lib.rt: `" + KEEPING.replace("after_roles", "weaker as after_roles").rstrip(";\n") + "` is of no known form"),
    "the_viewer_of_any_type": (VIEWER, "pub fn view(", "pub fn view<F: FnOnce(u32) -> u32>(", "viewer src/lib.view moved"),
    "the_viewer_with_a_demand_on_its_types": (VIEWER, VIEWED, VIEWED + "    where T: Copy\n", "viewer src/lib.view moved"),
    "every_byte_of_which_nothing_is_promised": (RUNS, EVERY, EVERY_BARE, "le src/run.every ensures went"),
    "every_byte_by_a_test_of_another_kind": (RUNS, "<F: Fn(u8) -> bool>", "<F: FnMut(u8) -> bool>", "le src/run.every moved"),
    "every_byte_by_a_test_with_a_demand_more": (RUNS, "<F: Fn(u8) -> bool>", "<F: Fn(u8) -> bool + Copy>", "le src/run.every moved"),
    "a_promise_at_a_value_that_no_one_has": (RUNS, CLEAR, CLEAR_BARE + "    ghost top: { ℕ }\n" + CLEAR_CLAUSE, "crates/le/src/run.rt: `ghost top: { ℕ }` is of no known form"),
    "a_function_of_an_impl_that_promises_nothing": ("crates/extent/src/lib.rt", "pub struct Extent {", "impl Told for Extent {\n    fn told(&self) -> u32 {\n        0\n    }\n}\n\npub struct Extent {", "extent src/lib.told is new"),
    "the_viewer_from_an_offset_of_32_bits": (VIEWER, "    offset: u64,\n    buffer: &mut [u8],\n", "    offset: u32,\n    buffer: &mut [u8],\n", "viewer src/lib.view moved"),
    # what is worked out and tried
    "a_row_deleted": (STARRED, ROW, "", f"{ROWS - 1} worked rows, and the lock has {ROWS}"),
    "a_row_of_another_answer": (STARRED, ROW, ROW.replace("2028", "2029"), "bench proofs/Starred.starred moved"),
    "a_worked_list_deleted": (LISTS, SHOWN, "", f"{LISTS_WORKED - 1} worked lists, and the lock has {LISTS_WORKED}"),
    "an_edit_deleted": (SIX_LINKS, None, None, "tests must-fail/six_links went"),
    "an_edit_that_edits_another_line": (SIX_LINKS, SIX, SIX.replace("6", "8"), "tests must-fail/six_links moved"),
    "an_edit_more": ("crates/le/must-fail/nothing.edit", None, "file: src/lib.rt\nold: a\nnew: b\n", f"{EDITS + 1} edits, and the lock has {EDITS}"),
    # the lock itself
    "a_line_missing": (LOCK, TURNED_AWAY, "", "history specs/Closed.TurnedAway is new"),
    "a_line_more": (LOCK, TURNED_AWAY, TURNED_AWAY + "0123456789abcdef history specs/Closed.Forgotten\n", "history specs/Closed.Forgotten went"),
    "a_count_missing": (LOCK, f"{EDITS} edits\n", "", f"{EDITS} edits, and the lock has no"),
    "no_lock": (LOCK, None, None, "history specs/Closed.TurnedAway is new"),
    # what no one could read off the definitions
    "a_definition_passed_on": (CLOSED, "use Rattle.history.specs.Claim.{DoneShowing}", "pub use Rattle.history.specs.Claim.{DoneShowing}",
        "specs/Closed.antt: `pub use Rattle.history.specs.Claim.{DoneShowing}` is not of the form"),
    "a_definition_renamed": (CLOSED, "specs.Claim.{DoneShowing}", "specs.Claim.{Mounts as DoneShowing}", "specs.Claim.{Mounts as DoneShowing}` renames or takes more than names"),
    "a_module_of_definitions_taken_whole": (CLOSED, "specs.Claim.{DoneShowing}", "specs.Claim.*", "specs.Claim.*` is not of the form"),
    "an_operator_that_binds_otherwise": (CLOSED, "pub record ClosedDiscs", "infixl 70 ◌⊎◌\n\npub record ClosedDiscs", "specs/Closed.antt: `infixl 70 ◌⊎◌` is of no known form"),
    "an_axiom": (CLOSED, "pub record ClosedDiscs", "axiom pub never : TurnedAway 0\n\npub record ClosedDiscs", "specs/Closed.antt: `axiom pub never : TurnedAway 0` is of no known form"),
    "a_comment_over_several_lines": (CLOSED, "pub record ClosedDiscs", "{- weaker -}\npub record ClosedDiscs", "specs/Closed.antt: a comment that is not `-- `"),
}

# What is said with another comment or in another layout.
RIGHT = {
    "another_comment": (CLOSED, "-- 17, unless one of 1 to 5 comes first.", "-- Seventeen, unless one of 1 to 5 comes first."),
    "another_layout": (CLOSED, "TurnedAway n = (n ≡ 17) ⊎ ((0 < n) × (n ≤ 5))", "TurnedAway n =\n    ( n ≡ 17 )\n    ⊎ ((0 < n) × (n ≤ 5))  -- in another layout"),
    "another_comment_on_code": (LOG, line_of(LOG, "// The log: "), "// The log of sectors.\n"),
    "another_layout_of_a_fact": (OWN, HIGH, HIGH.replace("{ ", "{\n        ").replace(" }", "\n    }")),
    "another_mend_of_an_edit": (SIX_LINKS, SIX, SIX + "file: crates/recorder/proofs/Done.antt\nold: later 12 rest\nnew: later 13 rest\n"),
}

# A file with each form of a ghost item and of what it can stand in.
FORMS = "crates/extent/src/forms.rt"
FORMS_TEXT = """// Bytes that are read one by one.
ghost use Rattle.std.specs.Prelude.{◌≡◌, ◌≤◌, ◌<◌, ℕ, List, length, drop};

pub trait Source: Drop {
    ghost use Rattle.extent.specs.Reading.{IsShorter};

    ghost left: { Self → List ℕ };

    ghost whole: { Self → Type 0 } = { λ _. Unit {0} };

    fn advance(&mut self) -> u8
        requires { 0 < length (left self.old) }
        ensures { left self.new ≡ drop 1 (left self.old) };

    ghost shorter: { (s : Self) → IsShorter (drop 1 (left s)) (left s) };
}

pub struct Few {
    pub count: u32,
    ghost small: { count < 10 } by { le_prop },
    pub ghost even: { count % 2 ≡ 0 },
    ghost last: { count ≤ 8 }
}

pub struct Reader<'a> {
    bytes: &'a [u8],
    at: usize,
}

impl<'a> Model for Reader<'a> {
    ghost use Rattle.std.specs.Prelude.{ℕ, List};
    ghost Value = { List ℕ };
    ghost use Rattle.std.specs.Prelude.{◌≤◌, length, drop};
    ghost view = { λ r. drop r.at r.bytes.now };
    ghost invariant = { λ r. r.at ≤ length r.bytes.now };
}

impl<'a> Source for Reader<'a> {
    type Item = u8;

    ghost left = { λ r. r };
    ghost shorter = { λ s. refl };

    fn advance(&mut self) -> u8 {
        self.at += 1;
        self.bytes[self.at - 1]
    }
}

impl<'a> Reader<'a> {
    #[tactic(auto, unfolding(crate::specs::Reading::reading))]
    pub fn advance(&mut self, by: usize)
        requires { by ≤ length self.old }
        ensures { self.new ≡ drop by self.old }
    {
        let brace = b'{';
        self.at += by;
    }

    pub fn rest(&self) -> usize
        ensures { result ≡ length self.now }
    {
        self.bytes.len() - self.at
    }
}

unsafe impl<'a> Send for Reader<'a> {}
"""

MODEL = "extent src/forms.impl<'a> Model for Reader<'a>"
SOURCE = "extent src/forms.Source"
READ = "extent src/forms.impl<'a> Source for Reader<'a>"
READER = "extent src/forms.impl<'a> Reader<'a>"
MARKED = "#[tactic(auto, unfolding(crate::specs::Reading::reading))]"
ADVANCE = FORMS_TEXT[FORMS_TEXT.index("    fn advance(&mut self) -> u8\n"):FORMS_TEXT.index("    ghost shorter: ")]
LAW = "    ghost shorter: { (s : Self) → IsShorter (drop 1 (left s)) (left s) };\n"
VIEW = "    ghost view = { λ r. drop r.at r.bytes.now };\n"
OF_VIEW = "    ghost use Rattle.std.specs.Prelude.{◌≤◌, length, drop};\n"
NO_FORM = "extent/src/forms.rt: `{}` is of no known form"

# What is wrong with that file, once the lock has it: text that stands once in it, what stands there instead, and what is told.
WRONG_FORMS = {
    # a model
    "a_model_of_any_fields": ("{ λ r. r.at ≤ length r.bytes.now }", "{ λ r. r ≡ r }", f"{MODEL}.invariant moved"),
    "a_model_without_its_invariant": ("    ghost invariant = { λ r. r.at ≤ length r.bytes.now };\n", "", f"{MODEL}.invariant went"),
    "a_model_with_another_view": ("{ λ r. drop r.at r.bytes.now }", "{ λ r. r.bytes.now }", f"{MODEL}.view moved"),
    "a_model_with_a_view_from_elsewhere": (OF_VIEW, OF_VIEW.replace(", drop", "") + "    ghost use Rattle.extent.specs.Weaker.{drop};\n", f"{MODEL}.view moved"),
    "a_model_of_a_file_with_another_name": ("ℕ, List, length, drop};", "ℕ, List, length};\nghost use Rattle.extent.specs.Weaker.{drop};", f"{MODEL}.view moved"),
    "a_model_with_a_view_above_what_it_names": (OF_VIEW + VIEW, VIEW + OF_VIEW, f"{MODEL} moved"),
    "a_model_of_another_value": ("{ List ℕ };", "{ ℕ };", f"{MODEL}.Value moved"),
    "a_model_of_nothing": ("impl<'a> Model for Reader<'a> {", "impl<'a> Shown for Reader<'a> {", f"{MODEL} went"),
    # a trait
    "a_trait_with_another_member": ("{ Self → List ℕ }", "{ Self → ℕ }", f"{SOURCE}.left moved"),
    "a_trait_with_a_member_less": ("    ghost left: { Self → List ℕ };\n", "", f"{SOURCE}.left went"),
    "a_trait_with_another_default": ("{ λ _. Unit {0} }", "{ λ _. ⊥ }", f"{SOURCE}.whole moved"),
    "a_trait_with_no_default": (" = { λ _. Unit {0} };", ";", f"{SOURCE}.whole moved"),
    "a_trait_without_its_law": (LAW, "", f"{SOURCE}.shorter went"),
    "a_trait_with_a_law_that_says_nothing": (LAW, "    ghost shorter: { (s : Self) → left s ≡ left s };\n", f"{SOURCE}.shorter moved"),
    "a_trait_with_a_law_from_elsewhere": ("specs.Reading.{IsShorter}", "specs.Weaker.{IsShorter}", f"{SOURCE}.shorter moved"),
    "a_trait_with_a_law_among_its_members": (ADVANCE + LAW, f"{LAW}\n{ADVANCE}", f"{SOURCE} moved"),
    "a_trait_with_its_last_function_final": ("    fn advance(&mut self) -> u8\n", "    final fn advance(&mut self) -> u8\n", f"{SOURCE} moved"),
    "a_trait_that_asks_for_more": ("trait Source: Drop {", "trait Source: Drop + Copy {", f"{SOURCE} moved"),
    "a_trait_that_promises_nothing": ("    ensures { left self.new ≡ drop 1 (left self.old) };", ";", f"{SOURCE}.advance ensures went"),
    "a_trait_of_which_a_function_asks_for_less": ("        requires { 0 < length (left self.old) }\n", "", f"{SOURCE}.advance requires went"),
    # an impl
    "an_impl_that_defines_another_member": ("{ λ r. r }", "{ λ r. [] }", f"{READ}.left moved"),
    "an_impl_of_another_type": ("type Item = u8;", "type Item = u16;", f"{READ} moved"),
    "an_impl_that_promises_less": ("    fn advance(&mut self) -> u8 {", "    fn advance(&mut self) -> u8\n        ensures { result ≡ result }\n    {", f"{READ}.advance ensures is new"),
    "an_impl_that_promises_nothing": ("        ensures { self.new ≡ drop by self.old }\n", "", f"{READER}.advance ensures went"),
    "an_impl_that_no_one_asks_for": ("unsafe impl<'a> Send for Reader<'a> {}\n", "", "extent src/forms.impl<'a> Send for Reader<'a> went"),
    "an_impl_more_of_the_same_type": ("unsafe impl", "impl<'a> Reader<'a> {}\n\nunsafe impl", f"{READER} 2 is new"),
    "an_impl_whose_header_cannot_be_read": ("impl<'a> Send for Reader<'a> {}", "impl Send for Held<{ 1 << 3 }> {}", "extent/src/forms.rt: impl: its header cannot be read"),
    # a struct
    "a_struct_with_a_fact_proved_otherwise": ("by { le_prop }", "by { lt_prop }", "extent src/forms.Few.small moved"),
    "a_struct_without_its_last_fact": ("    ghost last: { count ≤ 8 }\n", "", "extent src/forms.Few.last went"),
    "a_struct_without_its_public_fact": ("    pub ghost even: { count % 2 ≡ 0 },\n", "", "extent src/forms.Few.even went"),
    # which proofs are tried
    "a_method_of_which_no_proof_is_tried": (MARKED, "#[tactic(none)]", "extent/src/forms.rt: `#[tactic(none)]`: what it makes of the code is not known here"),
    "a_method_of_which_no_proof_is_tried_but_with_a_lemma": (MARKED, MARKED.replace("auto", "none"),
        f"extent/src/forms.rt: `{MARKED.replace('auto', 'none')}`: what it makes of the code"),
    "a_statement_of_which_no_proof_is_tried": ("        self.at += by;", "        #[tactic(none)]\n        self.at += by;", "extent/src/forms.rt: `#[tactic(none)]`: what it makes of the code"),
    # a ghost item of a form that is not known
    "a_struct_that_defines_a_fact": ("ghost last: { count ≤ 8 }", "ghost last = { count ≤ 8 }", NO_FORM.format("ghost last = { count ≤ 8 }")),
    "a_struct_that_brings_a_name": ("ghost last: { count ≤ 8 }", "ghost use Rattle.extent.specs.Weaker.{count};", NO_FORM.format("ghost use Rattle.extent.specs.Weaker.{count}")),
    "an_impl_that_declares_a_member": ("ghost left = { λ r. r };", "ghost left: { List ℕ };", NO_FORM.format("ghost left: { List ℕ }")),
    "a_trait_that_defines_a_member": ("ghost left: { Self → List ℕ };", "ghost left = { λ s. [] };", NO_FORM.format("ghost left = { λ s. [] }")),
    "an_enum_with_a_fact": ("unsafe impl", "enum Told {\n    One,\n    ghost two: { ℕ },\n}\n\nunsafe impl", NO_FORM.format("ghost two: { ℕ }")),
    "an_impl_with_a_public_member": ("ghost left = { λ r. r };", "pub ghost left = { λ r. r };", NO_FORM.format("ghost left = { λ r. r }")),
    "a_name_passed_on": ("// Bytes that are read one by one.\n", "pub ghost use Rattle.extent.specs.Extents.{extent};\n", NO_FORM.format("ghost use Rattle.extent.specs.Extents.{extent}")),
    "a_member_with_type_parameters": ("ghost left = { λ r. r };", "ghost left<T> = { λ r. r };", NO_FORM.format("ghost left<T> = { λ r. r }")),
    "a_member_of_nothing": ("unsafe impl", "ghost alone = { ℕ };\n\nunsafe impl", NO_FORM.format("ghost alone = { ℕ }")),
    "a_member_in_a_body": ("        let brace = b'{';\n", "        ghost inner = { ℕ };\n", NO_FORM.format("ghost inner = { ℕ }")),
    "a_name_brought_in_a_body": ("        let brace = b'{';\n", "        ghost use Rattle.extent.specs.Weaker.{drop};\n", NO_FORM.format("ghost use Rattle.extent.specs.Weaker.{drop}")),
    "a_ghost_value_of_a_method": ("        requires { by ≤", "        ghost top: { ℕ }\n        requires { by ≤", NO_FORM.format("ghost top: { ℕ }")),
    "a_ghost_value_of_a_function_without_a_clause": (LAW, f"    fn told(&self) -> u8\n        ghost top: {{ ℕ }};\n\n{LAW}", NO_FORM.format("ghost top: { ℕ }")),
    "a_ghost_value_of_a_function_of_a_trait": ("        requires { 0 <", "        ghost top: { ℕ }\n        requires { 0 <", NO_FORM.format("ghost top: { ℕ }")),
}

# What that file says too.
RIGHT_FORMS = {
    "forms_with_another_comment": ("    type Item = u8;\n", "    // ghost said = { ℕ }; impl {\n    type Item = u8;\n"),
    "forms_in_another_layout": (VIEW, "    ghost view = {\n        λ r. drop r.at r.bytes.now\n    };\n\n"),
    "forms_with_another_text": ("b'{'", '"impl Told { ghost said = \\"} pub fn told() {}"'),
    "forms_with_another_tactic": (MARKED, "#[tactic(\n        auto,\n        using(crate::proofs::Reading::shorter, std::proofs::lemmas::Grind::common_steps),\n"
        "        unfolding(crate::specs::Reading::reading),\n    )]"),
    "forms_with_a_tactic_of_a_trait": ("    fn advance(&mut self) -> u8\n", "    #[tactic(auto)]\n    fn advance(&mut self) -> u8\n"),
    "forms_with_a_method_that_no_one_else_calls": (f"    {MARKED}\n", f"    fn told(&self) -> bool {{\n        true\n    }}\n\n    {MARKED}\n"),
}
