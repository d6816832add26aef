"""compare.strips PROGRAM N SEED: see strips.sh."""
import subprocess
import sys

from jobs.strip_sets import answers, framed_sets, record

BATCH = 500


def split(text):
    """The answers of a run: each ends with its bounds."""
    out, lines = [], []
    for line in text.splitlines(keepends=True):
        lines.append(line)
        if line.startswith("bounds"):
            out.append("".join(lines))
            lines = []
    return out


def main():
    program, n, seed = sys.argv[1], int(sys.argv[2]), int(sys.argv[3])
    list_ = framed_sets(n, seed)
    wrong = strips = refused = points = 0
    for at in range(0, n, BATCH):
        part = list_[at : at + BATCH]
        done = subprocess.run([program], input=b"".join(record(*s) for s in part), capture_output=True, check=True)
        ours, theirs = split(done.stdout.decode()), answers(part)
        for i, right in enumerate(theirs):
            if i >= len(ours) or ours[i] != right:
                wrong += 1
                print(f"set {at + i} differs")
            strips += right.count("strip")
            refused += right.count("no 20")
            points = max(points, sum(len(l) for l in part[i][1]))
    print(f"{strips} strips, {refused} sets beyond the room, largest set of {points} points")
    print(f"{n} sets, {wrong} mismatches")
    sys.exit(wrong > 0)


main()
