"""How long a server needs to find the races of a run: search.py PORT UNTIL RACES PAUSE. Lets the design run until a time, a hundred races at a time, since a world keeps 256
segments to be searched; waits until so many races are listed, which it asks with a pause of so many seconds between, and prints the seconds that it took."""

import sys
import time
from pathlib import Path

sys.path.insert(0, str(Path(__file__).resolve().parents[2] / "clients" / "python"))

from loddrume import Server  # noqa: E402

port, until, races = map(int, sys.argv[1:4])
pause = float(sys.argv[4])
with Server(port).open("ann", "t1") as session:
    begin = time.monotonic()
    for found in range(100, races + 1, 100):
        session.run(until * found // races)
        while len(list(session.races())) < found:
            if time.monotonic() - begin > 60:
                sys.exit("not found in a minute")
            time.sleep(pause)
    print(f"{time.monotonic() - begin:.2f}")
