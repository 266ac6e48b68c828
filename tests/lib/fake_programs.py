"""The first lines of programs that stand in for naplps."""

# Reads the requests of `naplps batch`, and answers them.
BATCH = """
def answer(line, body=b''):
    out = sys.stdout.buffer
    out.write(line + b'\\n%d\\n' % len(body) + body)
    out.flush()
def requests():
    while True:
        line = sys.stdin.buffer.readline()
        if not line:
            return
        command, budget, length = line.split()
        yield command.decode(), int(budget), sys.stdin.buffer.read(int(length))
"""
