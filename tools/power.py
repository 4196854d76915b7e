"""The power-cut check: peer/c/power_cut.c passes with examples/banks.c, and fails with each copy of it that has a fault
planted, saying what is wrong."""

import os

BANKS = "examples/banks.c"
TEST = "peer/c/power_cut.c"
ARCHIVE = "target/staticlib/libgridprofile.a"
FOLDER = "target/power"

# A name, the old text and the new one, the part of the test that is run, and what it must say.
PLANTED = (
    (
        "digest_first",
        "if (!flash->program(bank, 0, record, BANKS_RECORD_BYTES))",
        "if (!flash->program(bank, BANKS_DIGEST_OFFSET, record + BANKS_DIGEST_OFFSET, GRIDPROFILE_DIGEST_BYTES) ||\n"
        "        !flash->program(bank, 0, record, BANKS_DIGEST_OFFSET))",
        "commits",
        "bytes are programmed once, upward, in an erased bank",
    ),
    (
        "writes_the_bank_that_counts",
        "other = counts == 0 ? 1 : 0;",
        "other = counts;",
        "commits",
        "after a cut a store is found",
    ),
    (
        "compares_no_digest",
        "if (is_whole(record->bytes))",
        "if (!is_erased(record->bytes))",
        "commits",
        "after a cut the old store or the new one is found",
    ),
    (
        "erases_only_what_does_not_read_as_erased",
        "if (!flash->erase(bank))",
        "if (found[bank].state != ERASED && !flash->erase(bank))",
        "commits",
        "bytes are programmed once, upward, in an erased bank",
    ),
    (
        "formats_no_damaged_device",
        "if (read_both(flash, found) != NONE)",
        "if (read_both(flash, found) != NONE || none_counts(found) == BANKS_DAMAGED)",
        "formats",
        "a format that is not cut answers rightly",
    ),
    (
        "formats_a_device_in_use",
        "if (read_both(flash, found) != NONE)",
        "if (read_both(flash, found) > NONE)",
        "counters",
        "a device with a store is not formatted",
    ),
    (
        "digest_leaves_the_counter_out",
        "gridprofile_shake128(bytes, BANKS_DIGEST_OFFSET, digest,",
        "gridprofile_shake128(bytes + BANKS_COUNTER_BYTES, GRIDPROFILE_STORE_IMAGE_BYTES, digest,",
        "flips",
        "after a flipped bit the other bank counts",
    ),
    (
        "takes_damage_for_a_new_device",
        "return blank ? BANKS_BLANK : BANKS_DAMAGED;",
        "return blank ? BANKS_BLANK : BANKS_BLANK;",
        "flips",
        "two damaged banks are told",
    ),
    (
        "counts_what_cannot_be_read",
        "if (!flash->read(bank, 0, record->bytes, sizeof record->bytes))",
        "if (!flash->read(bank, 0, record->bytes, sizeof record->bytes) && bank > 1)",
        "unreadable",
        "a bank that cannot be read does not count",
    ),
    (
        "commits_without_a_bank_that_counts",
        "if (counts == NONE)\n        return none_counts(found);",
        "if (counts == NONE)\n        counts = none_counts(found) == BANKS_BLANK ? NONE : 1;\n    if (counts == NONE)\n"
        "        return BANKS_BLANK;",
        "garbage",
        "a commit that must be refused is refused",
    ),
    (
        "older_store_counts",
        "found[1].counter > found[0].counter",
        "found[1].counter < found[0].counter",
        "counters",
        "what was committed is found",
    ),
    (
        "counter_begins_again",
        "found[counts].counter == UINT32_MAX",
        "found[counts].counter > UINT32_MAX",
        "counters",
        "a commit that must be refused is refused",
    ),
    (
        "reads_nothing_back",
        "return memcmp(record, back, BANKS_RECORD_BYTES) == 0 ? BANKS_DONE : BANKS_FAILED;",
        "return memcmp(record, record, BANKS_RECORD_BYTES) == 0 ? BANKS_DONE : BANKS_FAILED;",
        "failing",
        "a commit that failed says so",
    ),
)


def planted(text, old, new):
    """The text with the fault, or None where the old text does not stand in it just once."""
    return text.replace(old, new) if text.count(old) == 1 else None


def compiled(run, banks, program, *warnings):
    flags = ["-std=c11", "-O2", *warnings, "-I", "include", "-I", "examples"]
    status, _ = run("gcc", *flags, TEST, banks, ARCHIVE, "-o", program)
    return None if status == 0 else f"it does not compile: status {status}"


def unseen(status, output, said):
    """Why a run does not show that the test sees a fault, or None. A crash is no verdict."""
    if status == 1 and f"FAILED {said}" in output.splitlines():
        return None
    return f"status {status}, and the test does not say: {said}"


def try_fault(root, run, name, old, new, part, said):
    """The problem of one planted fault, or None."""
    with open(os.path.join(root, BANKS), encoding="utf-8") as file:
        text = planted(file.read(), old, new)
    if text is None:
        return f"the text to replace does not stand in {BANKS} just once"
    path = os.path.join(FOLDER, name)
    with open(os.path.join(root, f"{path}.c"), "w", encoding="utf-8") as file:
        file.write(text)
    return compiled(run, f"{path}.c", path) or unseen(*run(path, part), said)


def check(root, run):
    """A pair for each run of the test: what it is, and its problem or None. `run` takes a command, relative to the
    root, and gives its status and its output."""
    os.makedirs(os.path.join(root, FOLDER), exist_ok=True)
    program = os.path.join(FOLDER, "power_cut")
    problem = compiled(run, BANKS, program, "-Wall", "-Wextra", "-Werror", "-pedantic")
    yield "power-cut test compiled", problem
    status, _ = (127, "") if problem else run(program)
    yield "power-cut test", None if status == 0 else f"status {status}"
    for fault in PLANTED:
        yield f"banks with a fault, {fault[0]}, are seen", try_fault(root, run, *fault)
