#!/usr/bin/env python3
"""rows.py CRATES: writes the rows of resin_joint_table and resin_sql_more_table below the folder of crates."""

import os
import sys

import carrying
import reading


def write(folder, rows):
    for name, at in (("stdin", 0), ("stdout", 1)):
        with open(os.path.join(folder, name), "w", encoding="utf-8") as out:
            out.writelines(row[at] + "\n" for row in rows)


crates = sys.argv[1]
write(os.path.join(crates, "resin_joint_table"), [(line, reading.shown(line)) for line in reading.rows() if not line.startswith("#")])
write(os.path.join(crates, "resin_sql_more_table"), [(line, carrying.answer(line)) for line in carrying.rows()])
