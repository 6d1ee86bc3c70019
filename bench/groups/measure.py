#!/usr/bin/env python3
"""Measures aggregates beside the same work in plain Rust, as bench/columns/measure.py does with columns:
`python3 bench/groups/measure.py`. It is given groups.txt as the program and groups.rs as the measure, whose groups are in the standard
library's map."""
import importlib.util
import os

HERE = os.path.dirname(os.path.abspath(__file__))
COLUMNS = os.path.join(os.path.dirname(HERE), "columns", "measure.py")


def main():
    spec = importlib.util.spec_from_file_location("columns_measure", COLUMNS)
    measure = importlib.util.module_from_spec(spec)
    spec.loader.exec_module(measure)
    measure.HERE = HERE
    measure.NAME = "groups_speed"
    measure.USES = ("anyhow sub_types plan_leaves plan_typed func_table well_typed plan_denote eval_typed denote_typed byteorder col_fixed "
                    "col_text batch kernels call_kernels batch_nodes batch_calls value_sets among_constants eval_values eval_row eval_batch row_batches "
                    "rel_specs plan_pipes key_hashes row_keys group_laws indexmap group_keys group_tallies group_numbers group_columns "
                    "group_states group_inputs aggregate")
    measure.measure("groups")


main()
