#!/usr/bin/env python3
"""Measures sorts, merges of sorted runs and set operations beside the same work in plain Rust, as bench/columns/measure.py does
with columns: `python3 bench/sorts/measure.py`. It is given sorts.txt as the program and sorts.rs as the measure."""
import importlib.util
import os

HERE = os.path.dirname(os.path.abspath(__file__))
COLUMNS = os.path.join(os.path.dirname(HERE), "columns", "measure.py")


def main():
    spec = importlib.util.spec_from_file_location("columns_measure", COLUMNS)
    measure = importlib.util.module_from_spec(spec)
    spec.loader.exec_module(measure)
    measure.HERE = HERE
    measure.NAME = "sorts_speed"
    measure.USES = "anyhow sub_types plan_leaves plan_typed func_table well_typed plan_denote rel_specs plan_pipes byteorder col_fixed col_text batch batch_places key_hashes row_keys sort_merge group_laws hash_chains set_places set_rels"
    measure.measure("sorts")


main()
