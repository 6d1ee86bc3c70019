#!/usr/bin/env python3
"""Measures the hashes of keys beside the same work in plain Rust, as bench/columns/measure.py does with columns:
`python3 bench/keys/measure.py`. It is given hashes.txt as the program and hashes.rs as the measure."""
import importlib.util
import os

HERE = os.path.dirname(os.path.abspath(__file__))
COLUMNS = os.path.join(os.path.dirname(HERE), "columns", "measure.py")


def main():
    spec = importlib.util.spec_from_file_location("columns_measure", COLUMNS)
    measure = importlib.util.module_from_spec(spec)
    spec.loader.exec_module(measure)
    measure.HERE = HERE
    measure.NAME = "keys_speed"
    measure.USES = "anyhow sub_types plan_leaves plan_typed func_table plan_denote rel_specs byteorder col_fixed col_text batch key_hashes row_keys"
    measure.measure("hashes")


main()
