"""A program that does what the list of steps in its first word says, in place of `nlldb serve`. `.ci/gate/clients` shows it to the clients."""
import json
import os
import signal
import sys
import time


def act(verb, *words):
    """Does one step."""
    if verb == "take":
        for _ in range(words[0]):
            sys.stdin.buffer.readline()
    elif verb == "say":
        os.write(1, b"".join(json.dumps(it).encode() + b"\n" for it in words))
    elif verb == "begin":
        os.write(1, words[0].encode(errors="surrogateescape"))
    elif verb == "tell":
        os.write(2, (words[0] * words[1] if words else " ".join(sys.argv[2:])).encode())
    elif verb == "close":
        os.close(words[0])
    elif verb == "wait":
        time.sleep(60)
    elif verb == "drain":
        sys.stdin.buffer.read()
    elif verb == "die":
        os.kill(os.getpid(), signal.SIGKILL)
    elif verb == "end":
        os._exit(words[0])
    else:
        raise ValueError(verb)


for step in json.loads(sys.argv[1]):
    act(*step)
