"""planted.py COPY [NAME..]

Plants wrong changes into the definitions of what programs mean, one at a time, and says which examples each breaks. COPY is
a copy of the repository that may be written to. For each change `rt check` is run in COPY/crates/dae_program_tests, which
checks the crates below too; it prints the first examples that are refused, and ends with 1 where some change breaks none. An old text has to stand once in its file."""

import os
import re
import subprocess
import sys

if len(sys.argv) < 2 or sys.argv[1].startswith("-"):
    sys.exit(__doc__)
COPY = sys.argv[1]
EXPRESSIONS, STATEMENTS, SWITCHES, CALLS, PRINTING, INITIALISING, OUTCOMES = [
    "dae_program/specs/%s.antt" % name
    for name in ("Expressions", "Statements", "Switches", "Calls", "Printing", "Initialising", "Outcomes")]
OPERATIONS = "dae_meaning/specs/Operations.antt"

CHANGES = [
    ("right_operand_first", EXPRESSIONS,
     "evaluate s a env (ticked w) ⟫ λ x env w. evaluate s b env w ⟫ λ y. operate operator x y",
     "evaluate s b env (ticked w) ⟫ λ y env w. evaluate s a env w ⟫ λ x. operate operator x y"),
    ("address_of_assignment_twice", EXPRESSIONS, "evaluate s a env w ⟫ λ y. write kind o y",
     "evaluate s a env w ⟫ λ y env w. object s t env w ⟫ λ o. write kind o y"),
    ("right_side_before_address", EXPRESSIONS,
     "object s t env (ticked w) ⟫ λ o env w. evaluate s a env w ⟫ λ y. write kind o y",
     "evaluate s a env (ticked w) ⟫ λ y env w. object s t env w ⟫ λ o. write kind o y"),
    ("update_isnt_narrowed", EXPRESSIONS, "λ z. write kind o (extended kind z)", "λ z. write kind o z"),
    ("update_reads_last", EXPRESSIONS,
     "read kind o env w ⟫ λ x env w. evaluate s a env w ⟫ λ y env w.\n",
     "evaluate s a env w ⟫ λ y env w. read kind o env w ⟫ λ x env w.\n"),
    ("step_isnt_narrowed", EXPRESSIONS, "write kind o (extended kind (plus x change))", "write kind o (plus x change)"),
    ("step_gives_new_value", EXPRESSIONS, "Gives (if new then y else x)", "Gives (if new then y else y)"),
    ("conversion_does_nothing", EXPRESSIONS, "λ x. Gives (extended kind x)", "λ x. Gives x"),
    ("greater_is_less", EXPRESSIONS, "if turned then compared comparison y x else", "if turned then compared comparison x y else"),
    ("and_evaluates_both", EXPRESSIONS, "if nat_eq x 0 then Gives 0 env w else (evaluate s b env w ⟫ decide)",
     "(evaluate s b env w ⟫ λ y. if nat_eq x 0 then Gives 0 else decide y)"),
    ("or_gives_its_operand", EXPRESSIONS, "(evaluate s b env w ⟫ decide) else Gives 1 env w", "evaluate s b env w else Gives x env w"),
    ("conditional_turned", EXPRESSIONS, "if nat_eq x 0 then evaluate s c env w else evaluate s b env w",
     "if nat_eq x 0 then evaluate s b env w else evaluate s c env w"),
    ("division_by_zero_goes_on", EXPRESSIONS, "then Ends (Trapped 1) w else", "then Gives 0 env w else"),
    ("arguments_from_the_right", EXPRESSIONS,
     "evaluate s a env (ticked w) ⟫ λ x env w. arguments s xs env w ⟫ λ words. Gives (x ∷ words)",
     "arguments s xs env (ticked w) ⟫ λ words env w. evaluate s a env w ⟫ λ x. Gives (x ∷ words)"),
    ("callee_keeps_its_variables", EXPRESSIONS, "return_to env (Gives x e w) = Gives x env w", "return_to env (Gives x e w) = Gives x e w"),
    ("putchar_gives_its_word", EXPRESSIONS, "Gives (extended U8 x) env (with_printed", "Gives x env (with_printed"),
    ("abort_is_an_exit", EXPRESSIONS, "evaluate s (Abort p) env w = Ends (Trapped 5)", "evaluate s (Abort p) env w = Ends (Halted 5)"),
    ("past_the_end_before_misaligned", OPERATIONS,
     "    if not (nat_eq (address % size width) 0) then Some 3\n"
     "    else (if nat_lt address 16 || nat_lt length (address + size width) then Some 2 else None)",
     "    if nat_lt address 16 || nat_lt length (address + size width) then Some 2\n"
     "    else (if not (nat_eq (address % size width) 0) then Some 3 else None)"),
    ("last_byte_is_past_the_end", OPERATIONS, "nat_lt length (address + size width)", "nat_lt length (address + size width + 1)"),
    ("access_goes_unchecked", OUTCOMES, "if checked then Trapped code else Astray", "if checked then Astray else Astray"),
    ("reads_of_texts_dont_count", PRINTING, "env (with_read w)) w ⊳", "env w) w ⊳"),
    ("text_without_its_zero_byte", PRINTING, "if nat_eq b 0 then At Next env w else",
     "if nat_eq b 0 then At Next env (record w { loads = zero }) else"),
    ("texts_go_unchecked", PRINTING, "unless (misplaced B1 x (length w.memory)) (Gives", "unless (misplaced B1 16 (length w.memory)) (Gives"),
    ("last_piece_first", PRINTING,
     "print_text most_bytes (argument 0 words k) env (ticked w) ▷ print_pieces ps words",
     "print_pieces ps words env (ticked w) ▷ print_text most_bytes (argument 0 words k)"),
    ("no_zeros_behind_initialisers", STATEMENTS, "(clear size (plus w.frame offset)", "(clear 0 (plus w.frame offset)"),
    ("no_fall_through", STATEMENTS, "execute s last n t env w ▷ execute_from s last n zero rest", "execute s last n t env w ▷ At Next"),
    ("continue_leaves_the_switch", SWITCHES, "leave_switch (At Skips env w) = At Skips env w", "leave_switch (At Skips env w) = At Next env w"),
    ("break_leaves_the_loop_outside", SWITCHES, "leave_switch (At Leaves env w) = At Next env w", "leave_switch (At Leaves env w) = At Leaves env w"),
    ("default_goes_first", SWITCHES, "arm_with (Some x) 0 arms (arm_with None 0 arms (count_arms arms))",
     "arm_with None 0 arms (arm_with (Some x) 0 arms (count_arms arms))"),
    ("switch_without_label_begins_at_first", SWITCHES, "(count_arms arms))", "0)"),
    ("continue_leaves_the_loop", STATEMENTS, "execute s last n (Continue p k) env w = At Skips env", "execute s last n (Continue p k) env w = At Leaves env"),
    ("do_tests_first", STATEMENTS, "loop last (At Next) (execute s last n body) (test s (Some e)) n",
     "loop last (test s (Some e)) (execute s last n body) (At Next) n"),
    ("last_test_isnt_evaluated", STATEMENTS, "if last then (test env (ticked w) ↻ λ env w. Over Going w) else Over Going w", "Over Going w"),
    ("depth_counted_from_0", CALLS, "nat_lt p.limit (w.depth + 1)", "nat_lt p.limit w.depth"),
    ("frames_reach_past_the_end", CALLS, "nat_lt (length w.memory) (w.top + f.frame)", "nat_lt (length w.memory) w.top"),
    ("parameters_arent_stored", CALLS, "(env k) env (ticked w) ▷ keep_parameters", "0 env (ticked w) ▷ keep_parameters"),
    ("frames_on_one_another", CALLS, "record w { frame = w.top;", "record w { frame = w.frame;"),
    ("value_is_lost", CALLS, "result_of old (At Returns env w) = Gives (env 0)", "result_of old (At Returns env w) = Gives 0"),
]


def plant(name, file, old, new):
    path = os.path.join(COPY, "crates", file)
    text = open(path).read()
    if text.count(old) != 1:
        return "BAD: the old text stands %d times" % text.count(old)
    try:
        open(path, "w").write(text.replace(old, new))
        run = subprocess.run(["rt", "check"], cwd=os.path.join(COPY, "crates/dae_program_tests"), capture_output=True, text=True)
    finally:
        open(path, "w").write(text)
    lines = (run.stdout + run.stderr).split("\n")
    wrong = [l for l in lines if ": error:" in l and "specs/" in l.split(": error:")[0]]
    if wrong:
        return "BAD: " + wrong[0]
    broken = set(re.findall(r"`(\w+)_(?:runs|works)`", "\n".join(l for l in lines if "Examples.antt" in l)))
    places = [l for l in lines if "Examples.antt" in l and ": error:" in l]
    if not places:
        return "NOT REFUSED " + lines[-2][:80]
    return "refused: %d errors in examples %s" % (len(places), " ".join(sorted(broken))[:160] or places[0][:120])


def main():
    wanted = sys.argv[2:]
    bad = 0
    for name, *change in CHANGES:
        if not wanted or name in wanted:
            answer = plant(name, *change)
            bad += not answer.startswith("refused")
            print("%-40s %s" % (name, answer), flush=True)
    sys.exit(bad > 0)


main()
