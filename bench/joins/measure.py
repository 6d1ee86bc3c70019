#!/usr/bin/env python3
"""Measures joins beside the same work in plain Rust, as bench/columns/measure.py does with columns:
`python3 bench/joins/measure.py`. It is given joins.txt as the program and joins.rs as the measure, whose chains are those of a
table of its own and whose map is the standard library's."""
import importlib.util
import os

HERE = os.path.dirname(os.path.abspath(__file__))
COLUMNS = os.path.join(os.path.dirname(HERE), "columns", "measure.py")


def main():
    spec = importlib.util.spec_from_file_location("columns_measure", COLUMNS)
    measure = importlib.util.module_from_spec(spec)
    spec.loader.exec_module(measure)
    measure.HERE = HERE
    measure.NAME = "joins_speed"
    measure.USES = ("anyhow sub_types plan_leaves plan_typed func_table well_typed plan_denote eval_typed denote_typed text_match "
                    "byteorder col_fixed col_text kernels eval_values eval_row batch call_kernels batch_nodes batch_calls value_sets "
                    "among_constants eval_batch world arrow_meta arrow_decode arrow_read table_rows rel_specs plan_pipes key_hashes "
                    "row_keys hash_chains join_marks join_pairs join_keys join_rest join_columns pair_batches hash_join")
    measure.measure("joins")


main()
