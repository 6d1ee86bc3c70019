#!/usr/bin/env python3
"""Measures a filter and a projection of record batches beside the same work in plain Rust, as bench/columns/measure.py does with
columns: `python3 bench/steps/measure.py`. It is given steps.txt as the program and steps.rs as the measure."""
import importlib.util
import os

HERE = os.path.dirname(os.path.abspath(__file__))
COLUMNS = os.path.join(os.path.dirname(HERE), "columns", "measure.py")


def main():
    spec = importlib.util.spec_from_file_location("columns_measure", COLUMNS)
    measure = importlib.util.module_from_spec(spec)
    spec.loader.exec_module(measure)
    measure.HERE = HERE
    measure.NAME = "steps_speed"
    measure.USES = ("anyhow sub_types plan_leaves plan_typed func_table well_typed plan_denote eval_typed col_fixed col_text batch "
                    "text_match kernels batch_nodes batch_calls value_sets among_constants eval_batch rel_specs plan_pipes row_ops indexmap")
    measure.measure("steps")


main()
