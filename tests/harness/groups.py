"""The groups of tests, each with its units. A unit is a place and a function that plays one row, or rows that go together."""

from functools import partial

import command_rows
import database_rows
import guides
import launcher_cases
import lowering_cases
import page_cases
import program_rows
import script_rows
import serve_cases
import starter
import typed
import web_cases
from outcome import fault
from row_file import TOP, Broken, parse

# The files of rows: one that is lost, or is not named here, is a test that failed.
FILES = {
    "commands": "command_line expr",
    "databases": "calls cut fields hierarchies lines refused values",
    "programs": "answers arguments at_once bases begins branches calls caught_codes changed_lists constant_lists debug_bit element_operands expressions faults frames function_calls functions growing handlers hooks hostile in_place indexes inner_elements inner_lists_grow inner_property_lists integers known_names"
    " lambdacore last_ticks leaf_comparisons limits listings lists lists_grow_within longer_lists loop_variables loops memory names operands operations owners parts parts_in_place placed_values property_lists replaced replaced_parts reused rights scatters second_operands set_elements shared statements table turns updates utilities values verbs world",
    "script": "checkpoints commands connections hooks lines logins many parsing programming shown tasks",
}
KNOWN = {f"tests/{folder}/{name}.rows" for folder, names in FILES.items() for name in names.split()}


def units_of(program, block):
    """Returns the units of a block: one for each row, or one for all rows that are typed one after another. A block has rows."""
    if not block.rows:
        raise Broken(f"{block.place}: a block without rows")
    if block.kind == "programs" and block.database:
        return [(block.place, partial(program_rows.play_typed, program, block))]
    play = {
        "expressions": command_rows.play_expression,
        "command lines": command_rows.play_command_line,
        "programs": program_rows.play_alone,
        "scripts": partial(script_rows.play_script, database=block.database),
        "changes": partial(database_rows.play_change, base=block.database.read_bytes() if block.database else b""),
        "objects": database_rows.play_objects,
        "verbs": database_rows.play_verbs,
        "calls": database_rows.play_calls,
    }[block.kind]
    return [(row.place, partial(play, program, row)) for row in block.rows]


def failing(place, error):
    """Returns the unit of a file that cannot be read, or is not of the format."""
    return [(place, lambda: [fault(place, error)])]


def file_group(program, name):
    """Returns the group of a file of rows."""
    try:
        blocks = parse(name, (TOP / name).read_text("ascii"))
        return name, [unit for block in blocks for unit in units_of(program, block)] or failing(name, Broken("no rows"))
    except (Broken, OSError, UnicodeError) as error:
        return name, failing(name, error)


def file_names():
    """Returns the names of all files of rows, those that are known and those that are there."""
    there = {str(path.relative_to(TOP)) for folder in FILES for path in (TOP / "tests" / folder).iterdir() if path.suffix != ".db"}
    return sorted(KNOWN | there)


def all_groups(program):
    """Returns the groups in the order in which they are played, each with its name."""
    files = [file_group(program, name) if name in KNOWN else (name, failing(name, Broken("not in the list of tests/harness/groups.py")))
             for name in file_names()]
    return [
        ("the launcher", launcher_cases.units(program)),
        ("servers and their clients", serve_cases.units(program)),
        ("servers and browsers", web_cases.units(program)),
        *files,
        ("the page for browsers", page_cases.units()),
        ("the starter world", [("worlds/starter", partial(starter.play_build, program))]),
        ("its transcripts", starter.transcripts(program)),
        ("the example of the page on scripts", [("docs", partial(starter.play_example, program))]),
        ("the sessions of the guides", guides.units(program)),
        ("the commands of the guides", typed.units()),
        ("lowered programs", lowering_cases.units()),
    ]
