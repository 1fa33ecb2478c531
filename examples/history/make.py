#!/usr/bin/env python3
"""Makes history.jsonl, a script for `./fsemu replay`, and history.out, what has to be written for it.

usage: examples/history/make.py [--check]

With --check nothing is made: the status is 1 where one of the two files isn't what would be made.

The script commits to 40 documents of two collections, reads them now and as of old times, moves the clock, gives up
times, and has sessions leave and come back. What has to be written is worked out from a list of all states, for each
commit the documents that stand from its time on. The seed is fixed, so the files are the same each time.
"""
import json
import os
import sys

HERE = os.path.dirname(os.path.abspath(__file__))
SEED = 20240101
LINES = 2000
ROOT = "projects/demo/databases/(default)"
COLLECTIONS = ["rooms", "users"]
IDS = ["0", "1", "10", "2", "A", "B", "Z", "a", "a-b", "a.b", "aa", "ab", "b", "b b", "m", "n", "x", "y", "z", "~"]
NAMES = ["%s/documents/%s/%s" % (ROOT, collection, id) for collection in COLLECTIONS for id in IDS]
SESSIONS = ["ada", "bob", "cy", "dee", "eve", "fay"]
SECOND = 1_000_000
# 2024-01-01T00:00:00Z, in microseconds since 1970
START = 1_704_067_200 * SECOND


class Dice:
    """Numbers that look like random ones, the same from the same seed."""

    def __init__(self, seed):
        self.state = seed

    def below(self, n):
        self.state = (self.state * 6364136223846793005 + 1442695040888963407) % 2**64
        return (self.state >> 33) % n

    def one_of(self, items):
        return items[self.below(len(items))]

    def is_one_in(self, n):
        return self.below(n) == 0


# ---- texts


def date_text(days):
    """The date so many days after 1970-01-01."""
    year = 1970
    while days >= (length := 366 if is_leap(year) else 365):
        days -= length
        year += 1
    for month in range(1, 13):
        length = [31, 29 if is_leap(year) else 28, 31, 30, 31, 30, 31, 31, 30, 31, 30, 31][month - 1]
        if days < length:
            return "%04d-%02d-%02d" % (year, month, days + 1)
        days -= length


def is_leap(year):
    return year % 4 == 0 and (year % 100 != 0 or year % 400 == 0)


def time_text(time):
    """A time with 0, 3 or 6 decimals, the least that are exact."""
    seconds, micros = divmod(time, SECOND)
    days, seconds = divmod(seconds, 86_400)
    decimals = "" if micros == 0 else ".%03d" % (micros // 1000) if micros % 1000 == 0 else ".%06d" % micros
    clock = "%02d:%02d:%02d" % (seconds // 3600, seconds // 60 % 60, seconds % 60)
    return "%sT%s%sZ" % (date_text(days), clock, decimals)


def json_text(value, sort_keys=False):
    return json.dumps(value, separators=(",", ":"), ensure_ascii=False, sort_keys=sort_keys)


# ---- what is refused


class Refused(Exception):
    def __init__(self, code, status, message):
        super().__init__(message)
        self.error = {"code": code, "message": message, "status": status}


# ---- the database


class Database:
    """All states of a database: times that rise, and the documents from each on. A document is its fields, and the
    times at which it was created and updated."""

    def __init__(self):
        self.states = [(START, {})]
        self.moment = START
        self.last = START
        self.floor = START

    def clock(self, time):
        self.moment = max(self.moment, time)
        self.last = max(self.last, self.moment)

    def compact(self, time):
        self.floor = max(self.floor, min(time, self.last))

    def commit(self, writes):
        """The time of a commit, and the update time that each of its writes reports. A refused one has used its time
        all the same."""
        self.last += 1
        before = self.states[-1][1]
        after = dict(before)
        results = [self.write(after, number, *write) for number, write in enumerate(writes)]
        for name, _, _ in writes:
            # one that ends as it was is the document of before, whatever came between
            if name in before and name in after and before[name][0] == after[name][0]:
                after[name] = before[name]
        self.states.append((self.last, after))
        return self.last, results

    def write(self, documents, number, name, fields, exists):
        if exists is not None and exists != (name in documents):
            if exists:
                raise Refused(404, "NOT_FOUND", "write %d: document missing" % number)
            raise Refused(409, "ALREADY_EXISTS", "write %d: document exists" % number)
        if fields is None:
            documents.pop(name, None)
            return None
        there = documents.get(name)
        if there is None or there[0] != fields:
            there = documents[name] = (fields, there[1] if there else self.last, self.last)
        return there[2]

    def at(self, time):
        """The time of a read, and the documents of then."""
        if time is None:
            time = self.last
        if time < self.floor:
            bounds = (time_text(time), time_text(self.floor))
            raise Refused(400, "FAILED_PRECONDITION", "read time %s is before %s" % bounds)
        if time > self.last:
            bounds = (time_text(time), time_text(self.last))
            raise Refused(400, "INVALID_ARGUMENT", "read time %s is after %s" % bounds)
        return time, next(documents for since, documents in reversed(self.states) if since <= time)


def document_json(name, document):
    fields, created, updated = document
    shown = {"name": name, "createTime": time_text(created), "updateTime": time_text(updated)}
    if fields:
        shown["fields"] = fields
    return shown


# ---- the script


class Script:
    """The lines of a script, and what is written for them."""

    def __init__(self):
        self.dice = Dice(SEED)
        self.database = Database()
        self.open = set()
        self.lines = []
        self.written = []

    def say(self, line):
        self.lines.append(line if line == "" else json_text(line))

    def answer(self, reply):
        self.written.append(json_text(reply, sort_keys=True))

    def ask(self, method, content, carry_out):
        """A request, and its reply: what carrying it out gives, or why it is refused."""
        session = self.dice.one_of(SESSIONS)
        self.open.add(session)
        head = {"session": session}
        if not self.dice.is_one_in(10):
            head["id"] = str(len(self.lines) + 1)
        self.say({**head, method: content})
        try:
            self.answer({**head, "result": carry_out()})
        except Refused as refused:
            self.answer({**head, "error": refused.error})

    # -- what is asked

    def a_write(self):
        """A name, the fields that it gets or None for a delete, and whether it has to exist, if that matters."""
        dice = self.dice
        fields = None
        if not dice.is_one_in(4):
            fields = {"n": {"integerValue": str(dice.below(4) - 1)}}
            if dice.is_one_in(3):
                fields["text"] = {"stringValue": dice.one_of(["", "hi", "good day"])}
            if dice.is_one_in(12):
                fields = {}
        exists = dice.one_of([True, False]) if dice.is_one_in(8) else None
        return dice.one_of(NAMES), fields, exists

    def a_read_time(self):
        """A time as of which is read, or None for now."""
        dice, floor, last = self.dice, self.database.floor, self.database.last
        kept = [since for since, _ in self.database.states if since >= floor] or [floor]
        kinds = {
            6: lambda: None,
            12: lambda: dice.one_of(kept),
            14: lambda: dice.one_of(kept) - 1,
            16: lambda: floor + dice.below(last - floor + 1),
            17: lambda: floor,
            18: lambda: last,
            19: lambda: floor - 1 - dice.below(1000),
            20: lambda: last + 1 + dice.below(1000),
        }
        drawn = dice.below(20)
        return next(kind for bound, kind in kinds.items() if drawn < bound)()

    def with_read_time(self, content, time):
        if time is not None:
            content[self.dice.one_of(["readTime", "readTime", "read_time"])] = time_text(time)
        return content

    # -- lines

    def commit(self):
        writes = [self.a_write() for _ in range(1 + self.dice.below(3))]
        content = {"database": ROOT, "writes": [write_json(*write) for write in writes]}
        self.ask("commit", content, lambda: self.committed(writes))

    def committed(self, writes):
        time, updated = self.database.commit(writes)
        results = [{} if at is None else {"updateTime": time_text(at)} for at in updated]
        return {"commitTime": time_text(time), "writeResults": results}

    def get_document(self):
        name, time = self.dice.one_of(NAMES), self.a_read_time()
        self.ask("getDocument", self.with_read_time({"name": name}, time), lambda: self.got(name, time))

    def got(self, name, time):
        time, documents = self.database.at(time)
        if name not in documents:
            raise Refused(404, "NOT_FOUND", "no document at %s" % time_text(time))
        return document_json(name, documents[name])

    def batch_get_documents(self):
        names, time = [self.dice.one_of(NAMES) for _ in range(1 + self.dice.below(5))], self.a_read_time()
        content = {"database": ROOT, "documents": names}
        self.ask("batchGetDocuments", self.with_read_time(content, time), lambda: self.all_got(names, time))

    def all_got(self, names, time):
        time, documents = self.database.at(time)
        return [
            {"found": document_json(name, documents[name]), "readTime": time_text(time)}
            if name in documents
            else {"missing": name, "readTime": time_text(time)}
            # each once, where it stands first
            for name in dict.fromkeys(names)
        ]

    def run_query(self):
        collection, time = self.dice.one_of(COLLECTIONS), self.a_read_time()
        descends = self.dice.is_one_in(3)
        limit = None if self.dice.is_one_in(8) else self.dice.below(7)
        order = {"field": {"fieldPath": "__name__"}, "direction": "DESCENDING" if descends else "ASCENDING"}
        query = {"from": [{"collectionId": collection}], "orderBy": [order]}
        if limit is not None:
            query["limit"] = limit
        content = {"parent": ROOT + "/documents", "structuredQuery": query}
        content = self.with_read_time(content, time)
        self.ask("runQuery", content, lambda: self.found(collection, descends, limit, time))

    def found(self, collection, descends, limit, time):
        time, documents = self.database.at(time)
        below = "%s/documents/%s/" % (ROOT, collection)
        names = sorted((name for name in documents if name.startswith(below)), reverse=descends)[:limit]
        answers = [{"document": document_json(name, documents[name]), "readTime": time_text(time)} for name in names]
        return answers or [{"readTime": time_text(time)}]

    def clock(self):
        last = self.database.last
        to_millisecond, to_second = 1000 - last % 1000, SECOND - last % SECOND
        time = last + self.dice.one_of([1, 10, to_millisecond, to_second, 3600 * SECOND, 0, -1, -SECOND])
        self.say({"clock": time_text(time)})
        self.database.clock(time)

    def compact(self):
        since = self.dice.one_of(self.database.states[-200:])[0]
        time = since + self.dice.one_of([0, 0, 1, -1, -SECOND])
        if self.dice.is_one_in(12):
            time = self.database.last + SECOND
        self.say({"compact": time_text(time)})
        self.database.compact(time)

    def leave(self):
        session = self.dice.one_of(SESSIONS)
        self.say({"session": session, "leave": True})
        if session not in self.open:
            error = {"code": 400, "message": "line does not apply", "status": "INVALID_ARGUMENT"}
            self.answer({"error": error, "line": len(self.lines)})
        self.open.discard(session)

    def nothing(self):
        self.say("")

    def make(self):
        kinds = (
            [self.commit] * 45 + [self.get_document] * 24 + [self.batch_get_documents] * 9 + [self.run_query] * 9
            + [self.clock] * 4 + [self.compact] * 2 + [self.leave] * 6 + [self.nothing]
        )
        while len(self.lines) < LINES:
            self.dice.one_of(kinds)()


def write_json(name, fields, exists):
    write = {"delete": name} if fields is None else {"update": {"name": name, "fields": fields}}
    if exists is not None:
        write["currentDocument"] = {"exists": exists}
    return write


def main():
    script = Script()
    script.make()
    failed = False
    for file, lines in [("history.jsonl", script.lines), ("history.out", script.written)]:
        path = os.path.join(HERE, file)
        content = "".join(line + "\n" for line in lines).encode()
        if sys.argv[1:] == ["--check"]:
            with open(path, "rb") as made:
                if made.read() != content:
                    print("%s isn't what make.py makes" % path)
                    failed = True
        else:
            with open(path, "wb") as made:
                made.write(content)
    sys.exit(failed)


if __name__ == "__main__":
    main()
