"""Times `predict` and `check` on the jobs that bench/demo_jobs.py wrote, and prints the rows of the table in docs/speed.md.

    python3 bench/searches.py PROGRAM FOLDER RUNS

A row has the least time of the whole process (user and system) of that many runs, a twentieth of them for the wide job, and the
peak of its memory. It stops where two runs differ in what they print or
write.
"""
import os
import subprocess
import sys

PROGRAM, FOLDER, RUNS = os.path.abspath(sys.argv[1]), sys.argv[2], int(sys.argv[3])


def peak(folder, words):
    """kB at the peak. A process that Python starts itself counts Python's memory too."""
    words = ["/usr/bin/time", "-f", "%M", PROGRAM] + words
    done = subprocess.run(words, cwd=folder, stdout=subprocess.DEVNULL, stderr=subprocess.PIPE, text=True)
    return int(done.stderr.split()[-1])


def run(folder, words):
    """Milliseconds, and what was printed and what the certificate then is."""
    read, write = os.pipe()
    pid = os.fork()
    if pid == 0:
        os.chdir(folder)
        os.dup2(write, 1)
        os.execv(PROGRAM, [PROGRAM] + words)
    os.close(write)
    with os.fdopen(read) as out:
        text = out.read()
    _, _, usage = os.wait4(pid, 0)
    with open(f"{folder}/job.cert") as file:
        text += file.read()
    return (usage.ru_utime + usage.ru_stime) * 1000, text


def least(folder, words, runs):
    times, texts = zip(*(run(folder, words) for _ in range(runs)))
    assert len(set(texts)) == 1, "two runs differ"
    return min(times), peak(folder, words), texts[0]


for job in [str(n) for n in range(1, 11)] + ["wide"]:
    folder = f"{FOLDER}/{job}"
    runs = max(1, RUNS // 20) if job == "wide" else RUNS
    ms, kb, text = least(folder, ["predict", "job.toml", "job.cert"], runs)
    check_ms, check_kb, _ = least(folder, ["check", "job.toml", "job.cert"], runs)
    answer, boxes = text.split("\n")[0], int(text.split("\n")[1].split()[1])
    lines = text[text.index("dye-cert") :].count("\n")
    row = [job, answer, f"{boxes:,}", f"{lines:,}", f"{ms:,.1f}", f"{ms * 1000 / boxes:.1f}"]
    row += [f"{boxes * 1000 / ms:,.0f}", f"{check_ms:,.1f}", f"{kb:,}", f"{check_kb:,}"]
    print("| " + " | ".join(row) + " |")
