"""What goes wrong in an office of two machines."""
import dataclasses
from typing import Callable

from bench.shared.machines import Server, Standby


@dataclasses.dataclass(frozen=True)
class Kind:
    """What goes wrong: how it begins, and how it ends some seconds later, if it does."""

    name: str
    begin: Callable
    end: Callable | None = None
    # Whether it ends a joining at once.
    is_end: bool = True
    # Whether units start again what ended.
    is_tended: bool = False
    # Whether it takes machines with networks and disks of their own.
    is_apart: bool = False


def again(*programs):
    """Kills these programs, and starts them again at once."""

    def begin(office):
        server, standby = office.servers[-1], office.standby
        for program in (server, standby):
            if type(program) in programs:
                program.kill()
        office.note_joining()
        if Standby in programs:
            office.start_standby(standby.machine)
        if Server in programs:
            office.start_server(server.machine, server.journal, standby.machine)

    return begin


def cut(office):
    office.wire.cut(office.rng.choice(office.machines))


KINDS = [
    Kind("server killed", lambda office: office.server.kill()),
    Kind("standby killed", lambda office: office.standby.kill()),
    Kind("server stopped", lambda office: office.server.stop(), lambda office: office.server.go_on(), is_end=False),
    Kind("standby stopped", lambda office: office.standby.stop(), lambda office: office.standby.go_on(), is_end=False),
    Kind("link cut for good", cut, is_apart=True),
    Kind("link cut for a while", cut, lambda office: office.wire.mend(), is_end=False, is_apart=True),
    Kind("server's disk full", lambda office: office.machines[0].fill(), lambda office: office.machines[0].empty(), is_end=False, is_apart=True),
    Kind("standby's disk full", lambda office: office.machines[1].fill(), lambda office: office.machines[1].empty(), is_end=False, is_apart=True),
    Kind("server started again", again(Server), is_tended=True),
    Kind("standby started again", again(Standby)),
    Kind("both started again", again(Server, Standby), is_tended=True),
]
