"""The stored job of the crate long_job_test, one byte longer than a job may be, and what the oracle prints
for it."""
from jobs.cases import length_cases
from jobs.oracle import answers

LABEL = "length 65537"


def made():
    data = dict(length_cases())[LABEL]
    (text,) = answers([(LABEL, data)])
    return {"stdin": data, "stdout": text.encode()}, f"{len(data)} bytes, {text.strip()}"
