"""Programs in the place of confstore, between a session and who asks it. The paths of the Python and of the program
that they run are filled in."""

from __future__ import annotations

# A program in the place of confstore, which says at every fourth batch of a session that the file is too long.
TOO_LONG = '''#!{python}
import os, subprocess, sys
if sys.argv[1] != "run":
    os.execv({program!r}, [{program!r}, *sys.argv[1:]])
words = [{program!r}, *[word for word in sys.argv[1:] if word != "--group"]]
session = subprocess.Popen(words, stdin=subprocess.PIPE, stdout=subprocess.PIPE)
def take(stream):
    lines = []
    while not lines or lines[-1] != b"...\\n":
        lines.append(stream.readline())
        if not lines[-1]:
            sys.exit(session.wait() if stream is session.stdout else session.stdin.close() or session.wait())
    return b"".join(lines)
count, again = 0, False
while True:
    document = take(sys.stdin.buffer)
    is_batch = b"batch:" in document[:20]
    count += is_batch
    if is_batch and count % 4 == 0 and not again:
        again, answer = True, b"---\\nrefused: JournalLong\\n...\\n"
        count -= 1
    else:
        again = again and is_batch is False and b"checkpoint" not in document
        session.stdin.write(document)
        session.stdin.flush()
        answer = take(session.stdout)
        count += b"checkpoint" in document
    sys.stdout.buffer.write(answer)
    sys.stdout.buffer.flush()
'''


# A program in the place of confstore whose sessions get a command at a time, with pauses.
SLOW = '''#!{python}
import os, subprocess, sys, time
if sys.argv[1] != "run":
    os.execv({program!r}, [{program!r}, *sys.argv[1:]])
session = subprocess.Popen([{program!r}, *sys.argv[1:]], stdin=subprocess.PIPE)
for line in sys.stdin.buffer:
    session.stdin.write(line)
    if line == b"...\\n":
        session.stdin.flush()
        time.sleep(0.02)
session.stdin.close()
sys.exit(session.wait())
'''
