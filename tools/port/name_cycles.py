#!/usr/bin/env python3
"""Gives the cycles of functions names in place of all their members' names.

usage: python3 tools/port/name_cycles.py      run once, at the top of the repository
"""

import os
import re

NAMES = {
    "args_atom_bind_both_brackets_call_choose_compared_either_expr_named_atom_prefix_product_signed_sum_test_unary_whole": "expression_lines",
    "block_choice_command_commands_form_procedure_repeat_routine_routines": "command_lines",
    "check_args_check_expr": "expression_checks",
    "check_body_check_command_check_commands_check_routines": "command_checks",
    "write_args_write_expr": "expression_code",
    "write_command_write_commands_write_routine_write_routines": "command_code",
}

for top in ("crates/reader", "crates/translate"):
    for folder, dirs, files in os.walk(top, topdown=False):
        if "/out" in folder:
            continue
        for f in files:
            if f.endswith((".rt", ".antt")):
                path = os.path.join(folder, f)
                text = open(path, encoding="utf-8").read()
                new = text
                for old, name in NAMES.items():
                    new = re.sub(r"(cycle\(|\+)" + old + r"(?![\w])", lambda m: m.group(1) + name, new)
                if new != text:
                    open(path, "w", encoding="utf-8").write(new)
        last = os.path.basename(folder)
        if last.startswith("+") and last[1:] in NAMES:
            os.rename(folder, os.path.join(os.path.dirname(folder), "+" + NAMES[last[1:]]))
