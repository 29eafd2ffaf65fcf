"""The changes of the schema as a database's page of jobs has them."""

from __future__ import annotations

from typing import Any, Dict, List, Tuple

from history import History

MOST_ENDED = 50  # changes that have ended, of which the last ones are shown


def shown_jobs(jobs: List[Dict[str, Any]]) -> Tuple[List[Dict[str, Any]], int]:
    """Those of the changes that are shown, in their order: all that are under way and the last that have ended; and how many are left out."""
    shown, ended = [], 0
    for job in jobs:
        ended += job["ended"] is not None
        if job["ended"] is None or ended <= MOST_ENDED:
            shown.append(job)
    return shown, len(jobs) - len(shown)


def jobs_of(history: History, progress: List[Dict[str, Any]]) -> List[Dict[str, Any]]:
    """Each change that began, the last one first: what it adds or drops, the `state` and the `way` of that, how much of its fill or clear is `done`
    of `all`, the moments at which it `begun`, was `taken_back` and `ended`, and what it `waits` for."""
    waits = {it["number"]: it["waits"] for it in progress}
    pieces = {it["number"]: it.get("pieces") for it in progress}
    jobs = _changes(history.versions)
    for job in jobs:
        number = job["number"]
        job.update(name=history.names.get(number, ""), kind=history.kinds.get(number, ""), waits=None, pieces=None, **_done(history, job))
        if job["ended"] is None:
            job.update(waits=waits.get(number), pieces=pieces.get(number))
    return jobs[::-1]


def _changes(versions: List[Dict[str, Any]]) -> List[Dict[str, Any]]:
    """The changes, in the order in which they began, by the versions alone."""
    jobs: List[Dict[str, Any]] = []
    under_way: Dict[int, Dict[str, Any]] = {}
    for before, after in zip(versions, versions[1:]):
        for number, now in after["states"].items():
            was = before["states"].get(number)
            if was == now:
                continue
            job = under_way.get(number)
            if job is None:
                job = {"number": number, "adds": was is None or was["state"] == "absent", "begun": after["at"], "taken_back": None, "ended": None}
                under_way[number] = job
                jobs.append(job)
            _move(job, now, after["at"])
            if job["ended"] is not None:
                del under_way[number]
    return jobs


def _move(job: Dict[str, Any], now: Dict[str, str], at: int) -> None:
    """What a version at this moment makes of a change, whose element it has in this state."""
    job.update(state=now["state"], way=now["way"])
    if job["adds"] and now["way"] == "dropping" and job["taken_back"] is None:
        job["taken_back"] = at
    if now["state"] == "absent" or (now["state"] == "public" and not now["way"]):
        job["ended"] = at


def _done(history: History, job: Dict[str, Any]) -> Dict[str, Any]:
    """How much of its fill or clear is done, of how much in all; nothing if none was seen."""
    work = history.work.get(job["number"])
    is_fill = job["adds"] and job["taken_back"] is None
    if work is None or (work["kind"] == "fill") != is_fill:
        return {"done": None, "all": None}
    # it went on only since all of it was done
    return {"done": work["all"] if job["ended"] is not None else work["done"], "all": work["all"]}
