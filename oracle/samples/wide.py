"""The stored jobs of the crate wide_test with their rooms, and its fillings (jobs/wide.py), a container as
oracle/README.md says, and for each a line `job` with its label, then what the oracle answers."""
from jobs.wide import answer, cases, fill_answer, fill_record, fillings, record
from samples.stored import files_of, with_label


def made():
    pairs = [((label, record(*rest)), answer(*rest).decode()) for label, *rest in cases()]
    pairs += [((label, fill_record(*rest)), fill_answer(*rest)) for label, *rest in fillings()]
    return files_of(pairs, with_label, lambda text: text.split("\n")[0])
