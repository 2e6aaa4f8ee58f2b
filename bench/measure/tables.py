"""A table of a measurement, beside what is printed: rows of fields, which bench/run asks for by naming a file in BENCH_TSV."""
import os


def keep(*fields):
    """Adds a row to that file, where one is named. What isn't known is an empty field."""
    name = os.environ.get("BENCH_TSV")
    if name:
        with open(name, "a") as file:
            file.write("\t".join("" if field is None else str(field) for field in fields) + "\n")
