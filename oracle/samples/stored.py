"""The files of a sample of jobs."""
import collections

from jobs.bits import container


def files_of(pairs, line, key):
    """Of labelled jobs with their answers: the jobs as stdin, a `line` of each label and answer as
    stdout; and how many have each `key` of their answer."""
    count = collections.Counter(key(text) for _, text in pairs)
    told = ", ".join(f"{text}: {n}" for text, n in sorted(count.items()))
    files = {
        "stdin": container([one for one, _ in pairs]),
        "stdout": "".join(line(label, text) for (label, _), text in pairs).encode(),
    }
    return files, f"{told}; {len(pairs)} jobs"


def some(pairs, key, most):
    """Of each `key` of the answers the first so many."""
    count = collections.Counter()
    for one, text in pairs:
        count[key(text)] += 1
        if count[key(text)] <= most:
            yield one, text


def with_label(label, text):
    return f"job {label}\n{text}"
