#!/usr/bin/env python3
"""Measures `singular_or_list` over constants beside the same look-ups in plain Rust, as bench/columns/measure.py does with columns:
`python3 bench/options/measure.py`. It is given options.txt as the program and options.rs as the measure, whose set is the standard
library's."""
import importlib.util
import os

HERE = os.path.dirname(os.path.abspath(__file__))
COLUMNS = os.path.join(os.path.dirname(HERE), "columns", "measure.py")


def main():
    spec = importlib.util.spec_from_file_location("columns_measure", COLUMNS)
    measure = importlib.util.module_from_spec(spec)
    spec.loader.exec_module(measure)
    measure.HERE = HERE
    measure.NAME = "options_speed"
    measure.USES = ("anyhow sub_types plan_leaves plan_typed func_table well_typed plan_denote eval_typed col_fixed col_text batch "
                    "text_match kernels batch_nodes value_sets among_constants indexmap")
    measure.measure("options")


main()
