"""The example jobs, NAME.job, and what the oracle prints for each, NAME.plan; and two lists of placed panels, NAME.put, with what the program
`judge` prints for each, NAME.judged."""
from jobs.bits import bits, double, pack
from jobs.examples import examples, holes
from jobs.lists import One, ROOMS, judged, numbers, plans
from jobs.oracle import answers


def put_lines(data):
    """The `put` lines of a job's plan in filling order."""
    ((_, _, _, lines),) = plans([("", data)])
    (text,) = answers([("", data)])
    rows = {(int(k), int(o), int(x, 16), int(y, 16)): row
            for row in text.splitlines() if row.startswith("put ") for k, _, o, x, y, _ in [row.split()[1:]]}
    return [rows[line] for line in lines]


def judgement(data, rows):
    """What `judge` prints for `put` lines and a job."""
    fields = [row.split()[1:] for row in rows]
    lines = [(int(k), int(o), int(x, 16), int(y, 16)) for k, _, o, x, y, _ in fields]
    (told,) = judged([One("", data, ROOMS, numbers(lines))])
    _, number, line = told.split()
    return f"accepted {line}\n" if number == "0" else f"no {number} {line}\n"


def third_door_lower(rows):
    """Half a millimetre."""
    fields = rows[2].split()
    fields[5] = f"{bits(double(int(fields[5], 16)) - 0.5):016x}"
    return rows[:2] + [" ".join(fields)] + rows[3:]


def lists():
    """Name and `put` lines of each example list, and its job's bytes."""
    data = pack(holes())
    rows = put_lines(data)
    return [("holes", rows, data), ("holes-moved", third_door_lower(rows), data)]


def text_of(rows):
    return "".join(row + "\n" for row in rows).encode()


def made():
    list_ = [(name, pack(one)) for name, one in examples()]
    files, told = {}, []
    for (name, data), text in zip(list_, answers(list_)):
        files |= {name + ".job": data, name + ".plan": text.encode()}
        told.append(f"{name}: {len(data)} bytes, {text.splitlines()[0]}")
    for name, rows, data in lists():
        answer = judgement(data, rows)
        files |= {name + ".put": text_of(rows), name + ".judged": answer.encode()}
        told.append(f"{name}: {answer.strip()}")
    return files, "; ".join(told)
