# Prints the entries of a tournament's report as CSV, best first: python3 examples/handbook/table.py report.txt
import sys

import pandas

with open(sys.argv[1]) as report:
    lines = [line.rstrip("\n").split("|") for line in report]

matches = pandas.DataFrame([line[1:4] for line in lines if line[0] == "match"], columns=["left", "right", "turns"])
entries = pandas.DataFrame(
    [line[1:] for line in lines if line[0] == "entry"],
    columns=["name", "total", "rank", "wins", "undecided"],
)
ends = entries["total"].str.partition("..")
entries["low"] = ends[0]
entries["high"] = ends[2].where(ends[2] != "", ends[0])
entries["turns"] = [
    sum(int(turns) for left, right, turns in matches.itertuples(index=False) if name in (left, right))
    for name in entries["name"]
]
entries["a turn"] = entries["low"].astype(float) / entries["turns"]
best_first = entries.sort_values("a turn", ascending=False)
print(best_first[["name", "low", "high", "a turn", "rank"]].to_csv(index=False, float_format="%.4f"), end="")
