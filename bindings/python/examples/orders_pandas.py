"""Answers the orders of a sheet as a table of pandas, and writes it as CSV:

    python3 orders_pandas.py ORDERS.tsv >ANSWERED.csv
"""

import csv
import sys

import pandas

from orders_csv import answer


def main():
    # Text as it stands: no cell becomes a number or a missing value.
    table = pandas.read_csv(sys.argv[1], sep="\t", dtype=str, keep_default_na=False, quoting=csv.QUOTE_NONE)
    answers = [answer(row) for row in table.to_dict("records")]
    table[["answer", "line", "meaning"]] = pandas.DataFrame(answers, index=table.index)
    table.to_csv(sys.stdout, index=False)


if __name__ == "__main__":
    main()
