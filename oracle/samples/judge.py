"""What the program `judge` is given in the gate, the example list and its job right after it, and what the oracle says that it prints."""
from samples.examples import judgement, lists, text_of


def made():
    _, rows, data = lists()[0]
    answer = judgement(data, rows)
    return {"stdin": text_of(rows) + data, "stdout": answer.encode()}, answer.strip()
