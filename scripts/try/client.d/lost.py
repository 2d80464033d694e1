"""What each change says of being asked again if something on the way answers it. The table is written by hand."""

from __future__ import annotations

import inspect
import types
import typing
from collections.abc import Callable

POST, REPLACE = "S1 means that the report was posted", "S3 means that there is a later revision"
PUT, TAKE = "S1 means that the change is in place", "S2 means that there is nothing to remove"
REVISED = "S3 means that the stored revision is another one"
# Of each method its words, and what its text must say. A method that removes is asked again as one that removes.
CHANGES: dict[str, tuple[tuple[object, ...], dict[str, object], tuple[str, ...]]] = {
    "post": ((b"{}", 3), {"community": None}, (POST,)),
    "replace": ((1, 1, b"{}", 3), {"gates": (), "community": None}, (REPLACE,)),
    "redistribute": ((1, 1, "", 3), {}, (PUT, REVISED)),
    "address": ((1, "org", 3), {}, (PUT,)),
    "unaddress": ((1, "org", 3), {}, (TAKE,)),
    "grant": ((1, 1, "/Incident/0", "org", 3), {}, (PUT, REVISED)),
    "withdraw": ((1, "/Incident/0", "org", 3), {}, (TAKE,)),
    "add_org": (("x",), {}, (PUT,)),
    "add_client": ((2, 3), {}, (PUT,)),
    "remove_client": ((2, 3), {}, (TAKE,)),
    "add_person": ((2, "x", "reader", "0" * 64), {}, (PUT,)),
    "suspend": ((9,), {}, (PUT,)),
    "add_community": (("x",), {}, (PUT,)),
    "join": ((1, 2), {}, (PUT,)),
    "leave": ((1, 2), {}, (TAKE,)),
    "link": ((1, 2), {}, (PUT,)),
    "unlink": ((1, 2), {}, (TAKE,)),
    "nominate": ((2,), {}, (PUT,)),
    "unnominate": ((2,), {}, (TAKE,)),
    "new_group": (("x",), {}, (PUT,)),
    "group_add": ((1, 2), {}, (PUT,)),
    "group_remove": ((1, 2), {}, (TAKE,)),
    "group_active": ((1, True), {}, (PUT,)),
    "arrange": ((2, "GREEN"), {}, (PUT,)),
    "cancel_arrange": ((2,), {}, (TAKE,)),
}
ALL = (POST, REPLACE, PUT, TAKE, REVISED)


def by_lost(check: Callable[..., None], module: types.ModuleType, between: typing.Any, key: str, page: str) -> None:
    """Each change is answered by a page of a proxy's, so that no hub has it."""
    hub = module.Hub(f"http://127.0.0.1:{between.port}", key, pause=0.01)
    check("each change has its line here", {name for name, it in vars(module.Hub).items() if inspect.isfunction(it) and "AGAIN_" in inspect.getsource(it)}, set(CHANGES))
    for name, (words, named, says) in CHANGES.items():
        between.take(page)
        told = ""
        try:
            getattr(hub, name)(*words, **named)
        except module.MayBeTaken as fault:
            told = fault.detail
        check(f"{name}: what its answer means if it is asked again", ([text for text in ALL if text in told], len(between.asked), between.handed_on), (list(says), 1, 0))
