"""Times a running server: answers a second, frames a second, and its largest resident memory.

usage: bench/run measure server [UNITS]     (units of each of sixteen callers, 2000 where nothing is given)

Answers of one and of sixteen callers, one unit at a time, fifty, and all in one go, beside no worker and beside eight. Frames of one, two and four
workers at three shapes, files read and written. Memory with sixteen sessions and four workers at 64 modules of 96 slots, too.
"""
import sys
import threading
import time

from bench.shared.server import PLACES, Caller, serving


def timed(server, callers, units, unit, batch):
    """Answers a second, of units that are sent so many at a time."""
    links = [Caller(server.port).log_in() for _ in range(callers)]

    def serve(caller):
        for _ in range(units // batch):
            caller.send(unit * batch)
            caller.messages(batch)

    threads = [threading.Thread(target=serve, args=(caller,)) for caller in links]
    began = time.monotonic()
    for thread in threads:
        thread.start()
    for thread in threads:
        thread.join()
    taken = time.monotonic() - began
    for caller in links:
        caller.link.close()
    time.sleep(0.3)
    return round(callers * units / taken)


def main():
    units = int(sys.argv[1]) if len(sys.argv) > 1 else 2000
    for workers, frames in ((1, b""), (8, bytes(192) * 200_000)):
        with serving(workers=workers, frames=frames) as server:
            beside = "no frames" if not frames else "eight workers"
            for callers in (1, PLACES):
                for batch in (1, min(50, units), units):
                    rate = timed(server, callers, units, b"RTRV-CRS-T0::DS0-1-1:2;", batch)
                    print(f"times: {callers} callers, {batch} units at a time, beside {beside}: {rate} answers a second")
            print(f"memory: {server.resident()} KiB resident at most")
    with serving(64, 96, workers=4) as server:
        links = [Caller(server.port).log_in() for _ in range(PLACES)]
        print(f"memory: {server.resident()} KiB resident at most at 64 by 96, with {len(links)} sessions and four workers")
    for modules, slots in ((8, 24), (32, 32), (64, 96)):
        for workers in (1, 2, 4):
            count = 20_000_000 // (modules * slots)
            with serving(modules, slots, workers, bytes(modules * slots) * count) as server:
                began = server.started
                while any(len(server.output(worker)) < modules * slots * count for worker in range(workers)):
                    time.sleep(0.02)
                print(f"frames: {workers} workers at {modules} by {slots}: {round(count / (time.monotonic() - began))} frames a second each, files read and written")


if __name__ == "__main__":
    main()
