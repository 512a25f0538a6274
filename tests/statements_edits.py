#!/usr/bin/env python3
"""Shows that each check of tests/statements.py can fail: wrong copies of what it reads, each of which it must refuse in the right words.

    python3 tests/statements_edits.py

An edit is tried on a copy of the sources in a temporary folder. Those of the lock stand in lock_edits.py. The last line is 'N passed, M failed'.
"""
import re
import shutil
import subprocess
import sys
import tempfile
from pathlib import Path

import lock_edits
import statements

ROOT = Path(__file__).resolve().parent.parent
CODE = "crates/station/src/lib.rt"
CLIENT = "crates/client/src/lib.rt"
HEADER = "host/include/station.h"
CALLS = "crates/recorder/specs/Calls.antt"
EFFECTS = "crates/recorder/specs/Effects.antt"
VIEW = "crates/run/specs/View.antt"
FLOORS = "crates.txt"

WRITE_LEFT = "left_roles result image.new kinds.new roles.new ledger.new block.now"
WRITE_AFTER = "after_roles (lent image.old kinds.old) roles.old ledger.old (write (Some v) block.now)"
WRITE = f"{WRITE_LEFT} ≡ {WRITE_AFTER}"
EXPORT = '#[unsafe(no_mangle)]\npub extern "C" fn {}(image: &[u8], kinds: &[u8], ledger: &[u8]) -> u64\n{{\n    0\n}}\n'
RELEASE = """pub extern "C" fn station_release_roles(
    image: &[u8],
    kinds: &[u8],
    roles: &mut [u8],
    ledger: &mut [u8],
    v: u32,
) -> u64"""

# The calls that the code imports, as it names them.
IMPORTED = " ".join(re.search(r"ghost use Rattle\.recorder\.specs\.Calls\.\{[^}]*\}", (ROOT / CODE).read_text())[0].split())
EXTENT = "ghost use Rattle.extent.specs.Extents.{extent};"
CLOSE = "(close_session (extent main_length main_location) (extent reserve_length reserve_location) partition_start)"

# A client's function that stands on one line.
BEGIN_AND_MOUNT = lock_edits.line_of(CLIENT, "pub fn begin_and_mount(")

EXPORTED = (ROOT / CODE).read_text().count("#[unsafe(no_mangle)]")

# What is wrong: the file, text that stands once in it, what stands there instead, and what the refusal says.
SOURCES = {
    # a contract that says less
    "write_asks_for_31_sectors": (CODE, f"    ensures {{ {WRITE}",
        f"    requires {{ length kinds.old ≡ 31 }}\n    ensures {{ {WRITE}",
        "lib.rt: station_write_roles: has a requires: length kinds.old ≡ 31"),
    "write_asks_for_31_sectors_by_name": (CODE, f"    ensures {{ {WRITE}",
        f"    requires sized {{ length kinds.old ≡ 31 }}\n    ensures {{ {WRITE}",
        "lib.rt: station_write_roles: has a requires: length kinds.old ≡ 31"),
    "write_asks_for_31_sectors_with_a_star": (CODE, f"    ensures {{ {WRITE}",
        f"    requires* {{ ⌜ length kinds.old ≡ 31 ⌝ }}\n    ensures {{ {WRITE}",
        "lib.rt: station_write_roles: has a requires*: ⌜ length kinds.old ≡ 31 ⌝"),
    "write_promises_with_a_star": (CODE, f"    ensures {{ {WRITE} }}\n", f"    ensures* {{ ⌜ {WRITE} ⌝ }}\n",
        "lib.rt: station_write_roles: has 0 ensures, not one"),
    "write_promises_its_answer_alone": (CODE, WRITE, f"result ≡ ({WRITE_AFTER}).call.answer",
        "lib.rt: station_write_roles: its ensures is not"),
    "write_promises_nothing": (CODE, f"    ensures {{ {WRITE} }}\n", "",
        "lib.rt: station_write_roles: has 0 ensures, not one"),
    "write_promises_twice": (CODE, f"    ensures {{ {WRITE} }}\n", f"    ensures all {{ {WRITE} }}\n    ensures more {{ result ≡ result }}\n",
        "lib.rt: station_write_roles: has 2 ensures, not one"),
    "write_compares_the_roles_lent": (CODE, WRITE, WRITE.replace("roles.new", "roles.old"),
        "lib.rt: station_write_roles: its ensures is not"),
    "write_compares_the_image_lent": (CODE, WRITE, WRITE.replace("image.new", "image.old"),
        "lib.rt: station_write_roles: its ensures is not"),
    "write_begins_from_what_it_leaves": (CODE, WRITE, WRITE.replace("lent image.old", "lent image.new"),
        "lib.rt: station_write_roles: its ensures is not"),
    "write_is_the_other_form": (CODE, WRITE, WRITE.replace("(Some v)", "None"),
        "lib.rt: station_write_roles: its ensures is not"),
    "write_unnumbered_has_a_number": (CODE, "(write None block.now)", "(write (Some 0) block.now)",
        "lib.rt: station_write_unnumbered_roles: its ensures is not"),
    "view_of_another_number": (CODE, "v offset buffer.old", "0 offset buffer.old",
        "lib.rt: station_view: its ensures is not"),
    "view_exchanges_number_and_offset": (CODE, "v offset buffer.old", "offset v buffer.old",
        "lib.rt: station_view: its ensures is not"),
    "view_compares_the_buffer_lent": (CODE, "buffer.new", "buffer.old",
        "lib.rt: station_view: its ensures is not"),
    "begin_is_another_call": (CODE, "ledger.old begin }", "ledger.old mount }",
        "lib.rt: station_begin_roles: its ensures is not"),
    "release_of_another_number": (CODE, "(release v)", "(release 0)",
        "lib.rt: station_release_roles: its ensures is not"),
    "release_promises_behind_a_comment": (CODE, "(release v) }", "(release v) // }\n}",
        "lib.rt: station_release_roles: its ensures is not"),
    "look_back_adds_a_clause": (CODE, "(look_back k) }", "(look_back k) }\n    where",
        "lib.rt: station_look_back_roles: something else than"),
    "a_client_asks_for_31_sectors": (CLIENT, BEGIN_AND_MOUNT, BEGIN_AND_MOUNT + "    requires { length kinds.now ≡ 31 }\n",
        "crates/client/src/lib.rt: has a requires"),
    "commit_at_is_the_other_form": (CODE, "(commit (Some stamp.now))", "(commit None)",
        "lib.rt: station_commit_at_roles: its ensures is not"),
    "commit_is_some_form": (CODE, "ledger.old (commit None) }", "ledger.old (commit (Some [])) }",
        "lib.rt: station_commit_roles: its ensures is not"),
    "time_of_compares_the_answer_lent": (CODE, "answer.new", "answer.old",
        "lib.rt: station_time_of: its ensures is not"),
    "close_session_exchanges_the_extents": (CODE, CLOSE,
        "(close_session (extent reserve_length reserve_location) (extent main_length main_location) partition_start)",
        "lib.rt: station_close_session_roles: its ensures is not"),
    "close_session_exchanges_length_and_location": (CODE, CLOSE, CLOSE.replace("main_length main_location", "main_location main_length"),
        "lib.rt: station_close_session_roles: its ensures is not"),
    "close_session_names_one_extent_twice": (CODE, CLOSE, CLOSE.replace("reserve_length reserve_location", "main_length main_location"),
        "lib.rt: station_close_session_roles: its ensures is not"),
    "close_session_starts_at_0": (CODE, CLOSE, CLOSE.replace("partition_start", "0"),
        "lib.rt: station_close_session_roles: its ensures is not"),
    "close_session_leaves_out_the_start": (CODE, CLOSE, CLOSE.replace(" partition_start", ""),
        "lib.rt: station_close_session_roles: its ensures is not"),
    # a signature
    "release_number_of_64_bits": (CODE, RELEASE, RELEASE.replace("v: u32", "v: u64"),
        "lib.rt: station_release_roles: its parameter v is of type u64, not u32"),
    "release_answers_32_bits": (CODE, RELEASE, RELEASE.replace("-> u64", "-> u32"),
        "lib.rt: station_release_roles: answers u32, not u64"),
    "release_takes_the_kinds_first": (CODE, RELEASE, RELEASE.replace("    image: &[u8],\n    kinds: &[u8],\n", "    kinds: &[u8],\n    image: &[u8],\n"),
        "lib.rt: station_release_roles: its parameters do not begin with image, kinds, roles, ledger"),
    "release_takes_the_roles_last": (CODE, RELEASE, RELEASE.replace("    roles: &mut [u8],\n", "").replace("v: u32,\n", "v: u32,\n    roles: &mut [u8],\n"),
        "lib.rt: station_release_roles: its parameters do not begin with image, kinds, roles, ledger"),
    "release_is_lent_no_roles": (CODE, RELEASE, RELEASE.replace("release_roles", "release").replace("    roles: &mut [u8],\n", ""),
        "lib.rt: station_release: a call is lent the roles, and named so, exactly if it alters disc or ledger"),
    "release_alters_nothing": (CALLS, "manner_of (release v) = manner false true", "manner_of (release v) = manner false false",
        "lib.rt: station_release_roles: a call is lent the roles, and named so, exactly if it alters disc or ledger"),
    "release_of_any_kind_of_number": (CODE, RELEASE, RELEASE.replace("release_roles(", "release_roles<T>("),
        "lib.rt: station_release_roles: something else than"),
    "release_hides_a_symbol": (CODE, RELEASE, RELEASE.replace("v: u32", "after: u32"),
        "lib.rt: station_release_roles: its parameter after hides a symbol"),
    "release_lends_another_buffer": (CODE, RELEASE, RELEASE.replace("v: u32", "v: &[u8]"),
        "lib.rt: station_release_roles: its parameter v is of type &[u8], not u32"),
    "release_takes_two_numbers": (CALLS, "  release : ℕ → Call\n", "  release : ℕ → ℕ → Call\n",
        "lib.rt: station_release_roles: crates/recorder/specs/Calls.antt has no constructor release : ℕ → Call"),
    "commit_at_lends_no_stamp": (CODE, "    stamp: &[u8],\n", "", "lib.rt: station_commit_at_roles: its parameter behind the ledger is [], not ['stamp']"),
    "commit_at_takes_a_number": (CODE, "    stamp: &[u8],\n", "    stamp: &[u8],\n    k: u32,\n",
        "lib.rt: station_commit_at_roles: crates/recorder/specs/Calls.antt has no constructor commit : Option (List ℕ) → ℕ → Call"),
    "commit_always_takes_a_stamp": (CALLS, "  commit : Option (List ℕ) → Call", "  commit : List ℕ → Call",
        "lib.rt: station_commit_roles: crates/recorder/specs/Calls.antt has no constructor commit : Option (List ℕ) → Call"),
    "write_always_takes_a_number": (CALLS, "  write : Option ℕ → List ℕ → Call", "  write : ℕ → List ℕ → Call",
        "lib.rt: station_write_roles: crates/recorder/specs/Calls.antt has no constructor write : Option ℕ → List ℕ → Call"),
    "write_takes_another_number": (CODE, "    v: u32,\n    block: &[u8],", "    k: u32,\n    block: &[u8],",
        "lib.rt: station_write_roles: its parameter behind the ledger is ['k'], not ['v']"),
    "view_from_an_offset_of_32_bits": (CODE, "    offset: u64,\n", "    offset: u32,\n",
        "lib.rt: station_view: its parameter offset is of type u32, not u64"),
    "view_defined_without_an_offset": (VIEW, "pub view : Disc → List ℕ → ℕ → ℕ → List ℕ → After", "pub view : Disc → List ℕ → ℕ → List ℕ → After",
        "lib.rt: station_view: crates/run/specs/View.antt defines view : Disc → List ℕ → ℕ → List ℕ → After, not"),
    "close_session_takes_the_location_first": (CODE, "    main_length: u32,\n    main_location: u32,\n", "    main_location: u32,\n    main_length: u32,\n",
        "lib.rt: station_close_session_roles: crates/recorder/specs/Calls.antt has no constructor close_session : ℕ → ℕ → Extent → ℕ → Call"),
    "close_session_takes_no_start": (CODE, "    partition_start: u32,\n", "",
        "lib.rt: station_close_session_roles: crates/recorder/specs/Calls.antt has no constructor close_session : Extent → Extent → Call"),
    "close_session_takes_no_reserve": (CALLS, "  close_session : Extent → Extent → ℕ → Call", "  close_session : Extent → ℕ → Call",
        "lib.rt: station_close_session_roles: crates/recorder/specs/Calls.antt has no constructor close_session : Extent → Extent → ℕ → Call"),
    # what is exported
    "exported_from_another_crate": ("crates/listing/src/lib.rt", "pub mod text;\n", "pub mod text;\n\n" + EXPORT.format("station_list"),
        "crates/listing/src/lib.rt: station_list: exported from another crate than station"),
    "exported_under_another_name": ("crates/crc/src/lib.rt", "pub fn crc(", '#[export_name = "station_crc"]\npub fn crc(',
        "crates/crc/src/lib.rt: 1 marks of an exported function"),
    "exported_from_an_impl": (CODE, "use extent::Extent;\n", "use extent::Extent;\n\nimpl Told {\n" + EXPORT.format("station_erase") + "}\n",
        f"lib.rt: {EXPORTED + 1} marks of an exported function, and {EXPORTED} of the form"),
    "exported_and_not_declared": (CODE, "use extent::Extent;\n", "use extent::Extent;\n\n" + EXPORT.format("station_erase"),
        "station.h: station_erase is declared 0 times, not once"),
    "exported_as_a_rust_function": (CODE, "use extent::Extent;\n", "use extent::Extent;\n\n" + EXPORT.format("station_erase").replace('extern "C" ', ""),
        f'lib.rt: {EXPORTED + 1} marks of an exported function, and {EXPORTED} of the form'),
    "exported_by_a_plain_mark": (CODE, '#[unsafe(no_mangle)]\npub extern "C" fn station_begin_roles(', '#[no_mangle]\npub extern "C" fn station_begin_roles(',
        "lib.rt: `#[no_mangle]`: what it makes of the code is not known here"),
    "exported_under_a_condition": (CODE, '#[unsafe(no_mangle)]\npub extern "C" fn station_begin_roles(', '#[cfg(none)]\n#[unsafe(no_mangle)]\npub extern "C" fn station_begin_roles(',
        "lib.rt: `#[cfg(none)]`: what it makes of the code is not known here"),
    "exported_with_no_proof_tried": (CODE, '#[unsafe(no_mangle)]\npub extern "C" fn station_begin_roles(', '#[unsafe(no_mangle)]\n#[tactic(none)]\npub extern "C" fn station_begin_roles(',
        "lib.rt: `#[tactic(none)]`: what it makes of the code is not known here"),
    "exported_from_a_file_with_no_proof_tried": (CODE, "#![tactic(auto)]", "#![tactic(none)]",
        "lib.rt: `#![tactic(none)]`: what it makes of the code is not known here"),
    "nothing_exported": (CODE, None, "", "no function is exported"),
    # the header
    "header_lends_the_image_to_begin": (HEADER, "station_begin_roles(const uint8_t *image", "station_begin_roles(uint8_t *image",
        "station.h: station_begin_roles is declared as"),
    "header_keeps_the_roles_from_begin": (HEADER, "station_begin_roles(const uint8_t *image, size_t image_length,\n                             const uint8_t *kinds, size_t kinds_length,\n                             uint8_t *roles",
        "station_begin_roles(const uint8_t *image, size_t image_length,\n                             const uint8_t *kinds, size_t kinds_length,\n                             const uint8_t *roles",
        "station.h: station_begin_roles is declared as"),
    "header_exchanges_kinds_and_roles": (HEADER, "station_commit_roles(uint8_t *image, size_t image_length,\n                              uint8_t *kinds, size_t kinds_length,\n                              uint8_t *roles, size_t roles_length,",
        "station_commit_roles(uint8_t *image, size_t image_length,\n                              uint8_t *roles, size_t roles_length,\n                              uint8_t *kinds, size_t kinds_length,",
        "station.h: station_commit_roles is declared as"),
    "header_leaves_out_a_length": (HEADER, "station_write_roles(uint8_t *image, size_t image_length,", "station_write_roles(uint8_t *image,",
        "station.h: station_write_roles is declared as"),
    "header_number_of_64_bits": (HEADER, "uint32_t k);\n\n", "uint64_t k);\n\n",
        "station.h: station_look_back_roles is declared as"),
    "header_exchanges_the_extents": (HEADER, """uint32_t main_length,
                                     uint32_t main_location,
                                     uint32_t reserve_length,
                                     uint32_t reserve_location,""", """uint32_t reserve_length,
                                     uint32_t reserve_location,
                                     uint32_t main_length,
                                     uint32_t main_location,""",
        "station.h: station_close_session_roles is declared as"),
    "header_answers_32_bits": (HEADER, "uint64_t station_commit_roles(", "uint32_t station_commit_roles(",
        "station.h: station_commit_roles is declared as"),
    "header_declares_another": (HEADER, "uint64_t station_commit_roles(", "uint64_t station_erase(uint8_t *image, size_t image_length);\nuint64_t station_commit_roles(",
        "station.h: declares station_erase, which is not exported"),
    "header_leaves_out_commit": (HEADER, "uint64_t station_commit_roles(", "uint64_t station_save(",
        "station.h: station_commit_roles is declared 0 times, not once"),
    "header_renames_by_a_macro": (HEADER, "#define STATION_SECTOR 2048", "#define station_write station_begin\n#define STATION_SECTOR 2048",
        "station.h: defines station_write, which is not a STATION_ name"),
    "header_leaves_commit_to_a_condition": (HEADER, "uint64_t station_commit_roles(", "#if 0\nuint64_t station_commit_roles(",
        "station.h: `#if 0`: what stands behind it may be declared or not"),
    "header_declares_commit_for_c_plus_plus_alone": (HEADER, "uint64_t station_commit_roles(", "#ifdef __cplusplus\nuint64_t station_commit_roles(",
        "station.h: `#ifdef __cplusplus`: what stands behind it may be declared or not"),
    # what the symbols mean
    "after_from_another_module": (CODE, "specs.Effects.{left, after};", "specs.Effects.{left};\nghost use Rattle.recorder.specs.Weaker.{after};",
        "lib.rt: no ghost use brings after from Rattle.recorder.specs.Effects"),
    "after_twice": (CODE, "specs.Effects.{left, after};", "specs.Effects.{left, after};\nghost use Rattle.recorder.specs.Weaker.{after};",
        "lib.rt: after from Rattle.recorder.specs.Weaker stands in for after from Rattle.recorder.specs.Effects"),
    "after_with_roles_from_another_module": (CODE, "ghost use Rattle.roles.specs.Keeping.{left_roles, after_roles};",
        "ghost use Rattle.roles.specs.Keeping.{left_roles};\nghost use Rattle.roles.specs.Weaker.{after_roles};",
        "lib.rt: no ghost use brings after_roles from Rattle.roles.specs.Keeping"),
    "equality_from_another_module": (CODE, "Prelude.{◌≡◌, []};", "Prelude.{[]};\nghost use Rattle.recorder.specs.Weaker.{◌≡◌};",
        "lib.rt: no ghost use brings ◌≡◌ from Rattle.std.specs.Prelude"),
    "an_operator_that_begins_with_left": (CODE, EXTENT, EXTENT + "\nghost use Rattle.recorder.specs.Weaker.{left◌};",
        "lib.rt: left◌ from Rattle.recorder.specs.Weaker stands in for left"),
    "an_operator_of_an_answer": (CODE, EXTENT, EXTENT + "\nghost use Rattle.recorder.specs.Weaker.{result◌};",
        "lib.rt: result◌ from Rattle.recorder.specs.Weaker stands in for result from the logic"),
    "now_from_another_module": (CODE, EXTENT, EXTENT + "\nghost use Rattle.recorder.specs.Weaker.{now};",
        "lib.rt: now from Rattle.recorder.specs.Weaker stands in for now from the logic"),
    "extent_from_another_module": (CODE, EXTENT, "ghost use Rattle.recorder.specs.Weaker.{extent};",
        "lib.rt: no ghost use brings extent from Rattle.extent.specs.Extents"),
    "view_from_another_module": (CODE, "ghost use Rattle.run.specs.View.{view};", "ghost use Rattle.recorder.specs.Weaker.{view};",
        "lib.rt: no ghost use brings view from Rattle.run.specs.View"),
    "a_call_renamed": (CODE, ", commit, ", ", close_packet as commit, ",
        f"lib.rt: `{IMPORTED.replace(', commit, ', ', close_packet as commit, ')}` is not of the form"),
    "a_call_not_imported": (CODE, ", commit, ", ", ",
        "lib.rt: no ghost use brings commit from Rattle.recorder.specs.Calls"),
    "a_name_that_no_contract_has": (CODE, EXTENT, EXTENT + "\nghost use Rattle.recorder.specs.Weaker.{◌whenever◌};",
        "lib.rt: a ghost use brings ◌whenever◌ from Rattle.recorder.specs.Weaker, which no contract here has"),
    "after_passed_on_by_its_home": (EFFECTS, "unfoldable pub after : ", "pub use Rattle.recorder.specs.Weaker.{after}\n\nunfoldable pub afterwards : ",
        "crates/recorder/specs/Effects.antt: does not declare after, which the contracts take from it"),
    "a_call_passed_on_by_its_home": (CALLS, "  commit : Option (List ℕ) → Call", "  save : Option (List ℕ) → Call",
        "crates/recorder/specs/Calls.antt: does not declare commit, which the contracts take from it"),
    "after_for_one_impl_from_another_module": (CODE, EXTENT, EXTENT + "\n\nimpl Told {\n    ghost use Rattle.recorder.specs.Weaker.{after};\n}",
        "lib.rt: a ghost item stands in `impl Told`, which no contract here is of"),
    "some_from_another_module": (CODE, "Prelude.{None, Some};", "Prelude.{None};\nghost use Rattle.recorder.specs.Weaker.{Some};",
        "lib.rt: no ghost use brings Some from Rattle.std.specs.Prelude"),
    "none_of_another_option": (CODE, "Prelude.{None, Some};", "Prelude.{Some};\nghost use Rattle.std.proofs.Math.Option.{None};",
        "lib.rt: None from Rattle.std.proofs.Math.Option stands in for None from Rattle.std.specs.Prelude"),
    "a_module_taken_whole": (CODE, EXTENT, EXTENT + "\nghost use Rattle.recorder.specs.Weaker;",
        "lib.rt: `ghost use Rattle.recorder.specs.Weaker` is not of the form"),
    # who stands above whom
    "the_viewer_opens_the_calls": (FLOORS, "\nviewer: ", "\nviewer: calls ", "crates.txt: viewer imports calls"),
    "something_above_the_exports": (FLOORS, "\nlisting: ", "\nlisting: station ", "crates.txt: listing imports station"),
    "another_archive_above_the_exports": (FLOORS, "\nlisting: ", "\nlisting staticlib opt_level=3: station ", "crates.txt: listing imports station"),
}

# One more number: the same rule calls for it in the signature, in the call, in the contract and in the header, in the same order.
ANOTHER_NUMBER = [
    (CODE, "    ledger: &mut [u8],\n    k: u32,\n", "    ledger: &mut [u8],\n    k: u32,\n    from_block: u32,\n"),
    (CODE, "(look_back k)", "(look_back k from_block)"),
    (CALLS, "  look_back : ℕ → Call\n", "  look_back : ℕ → ℕ → Call\n"),
    (HEADER, "uint32_t k)", "uint32_t k, uint32_t from_block)"),
]

# The line that `rt lib` ends in for the archive, behind that of a crate below it, and what the refusal says.
COUNT = len(re.findall(r"^[^/\n]*\bfn ", (ROOT / CODE).read_text(), re.MULTILINE))
TRUSTED = "native=nat,char,string logic-built=trusted libraries-built=trusted statements=trusted"
PROVED = f"logic=proved functions={COUNT} target=x86_64-unknown-linux-gnu sum=0 {TRUSTED}"
BELOW = f"logic=proved functions={COUNT} sum=0 {TRUSTED}"
LINES = {
    "archive_not_proved": (PROVED.replace("proved", "not-proved"), "does not say logic=proved"),
    "archive_of_fewer_functions": (PROVED.replace(f"={COUNT}", f"={COUNT - 1}"), f"does not say functions={COUNT}"),
    "archive_with_an_axiom": (PROVED + " axioms=1", "says axioms=1"),
    "archive_with_a_function_of_c": (PROVED + " foreign=station::erase", "says foreign=station::erase"),
    "archive_with_a_contract_that_says_nothing": (PROVED + " hides=1", "says hides=1"),
    "archive_with_a_fault_in_what_rattle_made": (PROVED + " bugs=1", "says bugs=1"),
    "archive_that_may_abort": (PROVED + " may-abort=1", "says may-abort=1"),
    "archive_that_may_wait": (PROVED + " may-wait=1", "says may-wait=1"),
    "archive_for_later_processors": (PROVED.replace(" sum=", " cpu=x86-64-v2 sum="), "says cpu=x86-64-v2"),
    "archive_under_another_logic": (PROVED + " pinned=no", "says pinned=no"),
    "archive_with_holes": (f"{PROVED}\nholes=2", "`holes=2` does not say logic=proved"),
    "archive_with_no_verdict": (f"{PROVED}\nrattle: no verdict: it ran out of memory", "does not say logic=proved"),
    "archive_over_a_crate_with_a_function_of_c": (f"{BELOW} foreign=le::erase\n{PROVED}", "says foreign=le::erase"),
    "archive_of_which_only_the_crates_below_are_proved": (BELOW, "names no target"),
    "archive_that_says_nothing": ("", "does not say logic=proved"),
}

# The functions that an archive defines, and what the refusal says.
NAMES = re.findall(r"^uint64_t (station_\w+)\(", (ROOT / HEADER).read_text(), re.MULTILINE)
ARCHIVES = {
    "archive_defines_another": ([*NAMES, "station_erase"], "station_erase is defined 1 times and declared 0 times"),
    "archive_lacks_one": (NAMES[1:], f"{NAMES[0]} is defined 0 times and declared 1 times"),
}

passed = failed = 0


def copied(folder):
    """What tests/statements.py reads."""
    patterns = ["crates/*/src/**/*.rt", "crates/*/specs/**/*.antt", "crates/*/proofs/**/*.antt", "crates/*/must-fail/*.edit", "tests/must-fail/*.edit"]
    for path in [*(path for pattern in patterns for path in ROOT.glob(pattern)), ROOT / FLOORS, ROOT / HEADER, ROOT / lock_edits.LOCK]:
        copy = folder / path.relative_to(ROOT)
        copy.parent.mkdir(parents=True, exist_ok=True)
        shutil.copyfile(path, copy)


def expect(label, told, status, text):
    """One test: the exit status, and the text in what was said."""
    global passed, failed
    if told[1] == status and text in told[0]:
        passed += 1
        print(f"{label}: {'refused' if status else 'accepted'}, as it must be")
    else:
        failed += 1
        print(f"{label}: FAILED: status {told[1]}, and not {status} with '{text}':\n{told[0]}")


def edited(folder, file, old, new):
    """The file with one text put for another; without an old text, that alone; without a new one, none. The answer is what it held before."""
    path = folder / file
    right = path.read_text() if path.is_file() else None
    if new is None:
        path.unlink()
        return right
    if old is not None and right.count(old) != 1:
        sys.exit(f"an edit's old text stands {right.count(old)} times in {file}, and not once: {old}")
    path.parent.mkdir(parents=True, exist_ok=True)
    path.write_text(new if old is None else right.replace(old, new))
    return right


def restored(folder, file, right):
    if right is None:
        (folder / file).unlink()
    else:
        (folder / file).write_text(right)


def archive_of(folder, names):
    """An archive that defines these functions."""
    source, made, archive = folder / "station.c", folder / "station.o", folder / "libstation.a"
    source.write_text("".join(f"int {name}(void) {{ return 0; }}\n" for name in names))
    archive.unlink(missing_ok=True)
    subprocess.run(["cc", "-c", str(source), "-o", str(made)], check=True)
    subprocess.run(["ar", "rc", str(archive), str(made)], check=True)
    return str(archive)


def try_sources(folder):
    """Wrong copies of the sources and of the lock, and right ones: another layout, and what `--accept` has taken."""
    expect("sources_as_they_are", statements.said_of(folder, []), 0, "exported functions, each with the contract of its signature")
    for label, (file, old, new, refusal) in {**SOURCES, **lock_edits.WRONG}.items():
        right = edited(folder, file, old, new)
        expect(label, statements.said_of(folder, []), 1, refusal)
        restored(folder, file, right)
    for label, (file, old, new) in lock_edits.RIGHT.items():
        right = edited(folder, file, old, new)
        expect(label, statements.said_of(folder, []), 0, "as the lock has them")
        restored(folder, file, right)
    try_forms(folder)
    for file, old, new in ANOTHER_NUMBER:
        edited(folder, file, old, new)
    expect("another_number", statements.said_of(folder, ["--accept"]), 0, "exported functions, each with the contract of its signature")
    expect("another_number_accepted", statements.said_of(folder, []), 0, "exported functions, each with the contract of its signature")
    edited(folder, CODE, "(look_back k from_block)", "(look_back from_block k)")
    expect("another_number_in_another_order", statements.said_of(folder, []), 1, "lib.rt: station_look_back_roles: its ensures is not")
    copied(folder)


def try_forms(folder):
    """Wrong copies and right ones of a file with each form of a ghost item, once the lock has it."""
    edited(folder, lock_edits.FORMS, None, lock_edits.FORMS_TEXT)
    expect("forms_accepted", statements.said_of(folder, ["--accept"]), 0, "as the lock has them")
    wrong = [(label, old, new, 1, refusal) for label, (old, new, refusal) in lock_edits.WRONG_FORMS.items()]
    right = [(label, old, new, 0, "as the lock has them") for label, (old, new) in lock_edits.RIGHT_FORMS.items()]
    for label, old, new, status, told in [*wrong, *right]:
        held = edited(folder, lock_edits.FORMS, old, new)
        expect(label, statements.said_of(folder, []), status, told)
        restored(folder, lock_edits.FORMS, held)
    (folder / lock_edits.FORMS).unlink()
    copied(folder)


def try_archives(folder):
    expect("line_as_it_is", statements.said_of(folder, ["--archive", PROVED]), 0, PROVED)
    expect("line_of_work_that_was_kept", statements.said_of(folder, ["--archive", f"{PROVED} incremental=trusted"]), 0, PROVED)
    expect("line_on_standard_input", statements.said_of(folder, ["--archive", "-"], f"{BELOW}\naxioms std: none reached of the 2 declared\n{PROVED}\n"), 0, PROVED)
    for label, (line, refusal) in LINES.items():
        expect(label, statements.said_of(folder, ["--archive", line]), 1, refusal)
    expect("archive_as_declared", statements.said_of(folder, ["--archive", PROVED, archive_of(folder, NAMES)]), 0, PROVED)
    for label, (names, refusal) in ARCHIVES.items():
        expect(label, statements.said_of(folder, ["--archive", PROVED, archive_of(folder, names)]), 1, refusal)
    expect("archive_that_is_missing", statements.said_of(folder, ["--archive", PROVED, str(folder / "none.a")]), 1, "nm: ")


with tempfile.TemporaryDirectory() as name:
    copied(Path(name))
    try_sources(Path(name))
    try_archives(Path(name))

print(f"{passed} passed, {failed} failed")
sys.exit(1 if failed else 0)
