#!/usr/bin/env python3
"""Times the built program over workloads, beside parsing and printing the same bytes as plain JSON.

usage: bench/bench.py [lines [seed]], with FSEMU for another program than the one that ./fsemu runs

What the script ./fsemu takes before it starts the program is told by itself.

The scripts are made from the seed, so that two runs with the same words time the same bytes:

mixed    each second line commits a document of ten fields of mixed kinds, each other reads one that was committed
commits  each line commits a document of one integer
reads    a thousand documents of one integer are committed, and then each line reads one of them
old      a thousand documents are committed twenty times each, and then each line reads one as of an earlier time

Then requests over a collection of 10,000 documents of ten fields: a filter that 10 of them meet, an order by one field with
limit 50, and a read of 100 names. Each is timed as what hundreds of them add to a run that makes the documents, beside a plain
Python loop over as many dicts, with the requests parsed and the replies printed by `json`.

Then transactions: what a begin, a read of one document and a commit of it take together, beside plain commits of one document, and what
those take while 1,000 transactions are open that have read 100 other documents each.

Then a query that ten of 10,000 documents answer, beside documents of another collection. Then listening: what a plain commit takes while nobody
listens, while sessions listen to other collections, and while one listens to its own, of 1,000 and of 10,000 documents.

Then the memory of a document is measured: what a run that commits five times so many documents takes at its peak, the bytes
of the script and those of a run without lines apart, for each; and what fifty times so many commits to 1,000 names take,
without compactions and with one at every 10,000. At last lines of 10 MB are carried out: how long each takes, and what the
run takes more at its peak than one without lines, by the line's bytes. And requests of many filters, orders, cursor values, selected
paths and names are carried out at a quarter, half and all of 10 MB, whose times should go with their bytes.
"""
import base64
import json
import os
import random
import subprocess
import sys
import tempfile
import time

TOP = os.path.dirname(os.path.dirname(os.path.abspath(__file__)))
SCRIPT = os.path.join(TOP, "fsemu")
BUILT = os.path.join(TOP, "crates", "fsemu", "out", "fsemu")
FSEMU = os.environ.get("FSEMU", BUILT if os.path.exists(BUILT) else os.path.join(TOP, "release", "fsemu"))
ROOT = "projects/demo/databases/(default)"
DOCUMENTS = ROOT + "/documents"
RUNS = 5


def a_text(rand, size):
    return "".join(rand.choice("abcdefghijklmnopqrstuvwxyz äöüß") for _ in range(size))


def ten_fields(rand):
    return {
        "name": {"stringValue": a_text(rand, 24)},
        "text": {"stringValue": a_text(rand, 120)},
        "count": {"integerValue": str(rand.randrange(-(2**62), 2**62))},
        "open": {"booleanValue": rand.random() < 0.5},
        "none": {"nullValue": None},
        "at": {"timestampValue": "2024-%02d-%02dT%02d:%02d:%02d.%06dZ" % (
            rand.randrange(1, 13), rand.randrange(1, 29), rand.randrange(24), rand.randrange(60),
            rand.randrange(60), rand.randrange(1, 1000000))},
        "data": {"bytesValue": "QUJDREVGR0hJSktMTU5PUFFSU1RVVldYWVphYmM="},
        "owner": {"referenceValue": "%s/users/u%d" % (DOCUMENTS, rand.randrange(1000))},
        "tags": {"arrayValue": {"values": [{"stringValue": a_text(rand, 6)} for _ in range(4)]}},
        "place": {"mapValue": {"fields": {
            "city": {"stringValue": a_text(rand, 10)},
            "zip": {"integerValue": str(rand.randrange(100000))}}}},
    }


def one_field(rand):
    return {"n": {"integerValue": str(rand.randrange(100000))}}


def commit(name, fields):
    return {"commit": {"database": ROOT, "writes": [{"update": {"name": name, "fields": fields}}]}}


def read(name):
    return {"getDocument": {"name": name}}


def message_name(rand, most):
    return "%s/rooms/r%d/messages/m%d" % (DOCUMENTS, rand.randrange(20), rand.randrange(1, most))


def mixed(lines, rand):
    names = []
    for i in range(lines):
        if i % 2 == 0:
            names.append(message_name(rand, lines // 2 + 2))
            yield commit(names[-1], ten_fields(rand))
        else:
            yield read(rand.choice(names))


def commits(lines, rand):
    for _ in range(lines):
        yield commit(message_name(rand, lines), one_field(rand))


def reads(lines, rand):
    names = [message_name(rand, 1000) for _ in range(1000)]
    for name in names:
        yield commit(name, one_field(rand))
    for _ in range(lines):
        yield read(rand.choice(names))


def moment(micros):
    """The text of a time so many microseconds after the start, less than a minute."""
    return "2024-01-01T00:00:%02d.%06dZ" % divmod(micros, 1000000)


def old_reads(lines, rand):
    names = ["%s/c/d%03d" % (DOCUMENTS, i) for i in range(1000)]
    for _ in range(20):
        for name in names:
            yield commit(name, one_field(rand))
    for _ in range(lines):
        yield {"getDocument": {"name": rand.choice(names), "readTime": moment(rand.randrange(1000, 20000))}}


def documents(lines, rand, fields, names):
    for i in range(lines):
        yield commit("%s/c/d%07d" % (DOCUMENTS, i % names), fields(rand))


def script_of(requests):
    lines = [json.dumps({"session": "s", "id": str(i), **request}, ensure_ascii=False, separators=(",", ":"))
             for i, request in enumerate(requests)]
    return ("\n".join(lines) + "\n").encode()


# A process begins with the peak of the one that it is forked from, so a small one starts the program.
LAUNCH = """
import os, sys, time
start = time.perf_counter()
child = os.posix_spawn(sys.argv[1], [sys.argv[1], "replay"], os.environ)
_, status, usage = os.wait4(child, 0)
print(time.perf_counter() - start, usage.ru_maxrss, os.waitstatus_to_exitcode(status), file=sys.stderr)
"""


def timed_fsemu(path, program=FSEMU):
    with open(path, "rb") as script, tempfile.TemporaryFile() as out:
        told = subprocess.run([sys.executable, "-c", LAUNCH, program], stdin=script, stdout=out, stderr=subprocess.PIPE)
        seconds, peak, status = told.stderr.split()
        out.seek(0)
        written = out.read()
    if int(status) != 0:
        sys.exit("fsemu ended with status %s" % status.decode())
    return float(seconds), int(peak), written


def timed_floor(loads, dumps, script, written):
    """The same bytes, in and out, parsed and printed by a plain library."""
    start = time.perf_counter()
    for line in script.splitlines():
        loads(line)
    for line in written.splitlines():
        dumps(loads(line))
    return time.perf_counter() - start


def libraries():
    yield "json", json.loads, json.dumps
    try:
        import orjson
    except ImportError:
        print("orjson isn't there")
    else:
        yield "orjson", orjson.loads, orjson.dumps


def best_of(script, runs):
    with tempfile.NamedTemporaryFile() as file:
        file.write(script)
        file.flush()
        return min(timed_fsemu(file.name) for _ in range(runs))


def measure(name, requests):
    script = script_of(requests)
    seconds, peak, written = best_of(script, RUNS)
    count = script.count(b"\n")
    print("%s: %d lines, %.1f MB in, %.1f MB out" % (name, count, len(script) / 1e6, len(written) / 1e6))
    print("  fsemu   %.3f s  %8.0f lines/s  peak %.0f MB" % (seconds, count / seconds, peak / 1024))
    for library, loads, dumps in libraries():
        floor = min(timed_floor(loads, dumps, script, written) for _ in range(RUNS))
        print("  %-7s %.3f s  %8.0f lines/s  fsemu takes %.1f times as long" % (
            library, floor, count / floor, seconds / floor))


def number(transaction):
    return base64.b64encode(transaction.to_bytes(8, "big")).decode()


def made(rand):
    """1,000 documents, and the commits that make them, each of which draws a number."""
    names = [message_name(rand, 1000) for _ in range(1000)]
    return names, [commit(name, one_field(rand)) for name in names]


def again(names, count, rand):
    """Plain commits to documents that are there."""
    for _ in range(count):
        yield commit(rand.choice(names), one_field(rand))


def transactional(names, drawn, count, rand):
    """A begin, a read of a document that is there, and a commit of it, again and again. Each begin draws the next number."""
    for transaction in range(drawn + 1, drawn + count + 1):
        name = rand.choice(names)
        yield {"beginTransaction": {"database": ROOT}}
        yield {"getDocument": {"name": name, "transaction": number(transaction)}}
        yield {"commit": {**commit(name, one_field(rand))["commit"], "transaction": number(transaction)}}


def open_transactions(count, reads):
    """Transactions that stay open, and have read so many documents each."""
    for transaction in range(1, count + 1):
        names = ["%s/open/d%07d" % (DOCUMENTS, transaction * reads + i) for i in range(reads)]
        yield {"beginTransaction": {"database": ROOT}}
        yield {"batchGetDocuments": {"database": ROOT, "documents": names, "transaction": number(transaction)}}


def measure_transactions(lines, seed):
    def took(requests):
        return best_of(script_of(requests), RUNS)[0]

    rand = random.Random(seed)
    names, making = made(rand)
    opened = list(open_transactions(1000, 100))
    plain = list(again(names, lines, rand))
    alone, beside = took(making), took(opened + making)
    for name, seconds in (
            ("a plain commit", took(making + plain) - alone),
            ("a begin, a read and a commit", took(making + list(transactional(names, len(names), lines, rand))) - alone),
            ("a plain commit beside 1,000 open transactions", took(opened + making + plain) - beside)):
        print("%s: %.1f µs" % (name, seconds / lines * 1e6))


def listeners(sessions, targets, collection):
    """Sessions that listen to so many targets each, the query of one collection."""
    for session in range(sessions):
        for target in range(1, targets + 1):
            query = {"parent": DOCUMENTS, "structuredQuery": {"from": [{"collectionId": collection}]}}
            yield {"session": "l%d" % session, "listen": {"database": ROOT, "addTarget": {"targetId": target, "query": query}}}


def sessions(count):
    """Sessions that are open, and listen to nothing."""
    for session in range(count):
        yield {"session": "l%d" % session, "getDocument": {"name": DOCUMENTS + "/c/none"}}


def measure_listening(lines, seed):
    def took(requests):
        return best_of(script_of(requests), RUNS)[0]

    rand = random.Random(seed)
    making = list(documents(1000, rand, one_field, 1000))
    more = list(collection("c", 10000))
    plain = list(documents(lines, rand, one_field, 1000))
    for name, listening in (
            ("nobody listens", []),
            ("a session listens to 10 targets of another collection", list(listeners(1, 10, "other"))),
            ("a session listens to 100 targets of another collection", list(listeners(1, 100, "other"))),
            ("ten sessions listen to 10 targets of another collection each", list(listeners(10, 10, "other"))),
            ("ten sessions listen to 100 targets of another collection each", list(listeners(10, 100, "other"))),
            ("a session listens to 10 targets of that collection", list(listeners(1, 10, "c"))),
            ("a session listens to 10 targets of that collection, of 10,000 more documents", more + list(listeners(1, 10, "c"))),
            ("ten more sessions are open", list(sessions(10))),
            ("sixty more sessions are open", list(sessions(60)))):
        print("a plain commit while %s: %.1f µs" % (name, (took(making + listening + plain) - took(making + listening)) / lines * 1e6))


def collection(id, count):
    """Commits of 500 documents each, with one integer."""
    for start in range(0, count, 500):
        yield {"commit": {"database": ROOT, "writes": [
            {"update": {"name": "%s/%s/d%07d" % (DOCUMENTS, id, i), "fields": {"n": {"integerValue": str(i)}}}}
            for i in range(start, start + 500)]}}


def measure_beside():
    """A query of a collection of 10,000 documents that ten answer, beside those of another."""
    asked = run_query(limit=10)
    for others in (1000, 100000):
        making = list(collection("c", 10000)) + list(collection("other", others))
        added = best_of(script_of(making + 200 * [asked]), RUNS)[0] - best_of(script_of(making), RUNS)[0]
        print("a query that ten of 10,000 documents answer, beside %d others: %.2f ms" % (others, added / 200 * 1e3))


MANY = 10000


def many_documents(rand):
    """Commits of 500 documents each; of the numbers from 0 to 999 each is that of ten documents."""
    for start in range(0, MANY, 500):
        yield {"commit": {"database": ROOT, "writes": [
            {"update": {"name": "%s/c/d%05d" % (DOCUMENTS, i),
                        "fields": {**ten_fields(rand), "count": {"integerValue": str(i * 7919 % 1000)}}}}
            for i in range(start, start + 500)]}}


def run_query(**query):
    return {"runQuery": {"parent": DOCUMENTS, "structuredQuery": {"from": [{"collectionId": "c"}], **query}}}


def rare(rand):
    """A filter that ten documents meet."""
    return run_query(where={"fieldFilter": {
        "field": {"fieldPath": "count"}, "op": "EQUAL", "value": {"integerValue": str(rand.randrange(1000))}}})


def ordered(rand):
    """An order by one field, with a limit."""
    return run_query(orderBy=[{"field": {"fieldPath": "name"}, "direction": "DESCENDING"}], limit=50)


def ordered_whole(rand):
    """The same order without a limit, of which the last documents are answered."""
    return run_query(orderBy=[{"field": {"fieldPath": "name"}, "direction": "DESCENDING"}], offset=MANY - 50)


def hundred(rand):
    """A read of a hundred documents by their names."""
    names = ["%s/c/d%05d" % (DOCUMENTS, rand.randrange(MANY)) for _ in range(100)]
    return {"batchGetDocuments": {"database": ROOT, "documents": names}}


def plain_answer(documents, request):
    """What a plain loop over dicts does for such a request."""
    if "batchGetDocuments" in request:
        names = dict.fromkeys(request["batchGetDocuments"]["documents"])
        return [{"found": documents[name]} if name in documents else {"missing": name} for name in names]
    query = request["runQuery"]["structuredQuery"]
    found = [d for d in documents.values() if d["name"].startswith(DOCUMENTS + "/c/")]
    if "where" in query:
        wanted = query["where"]["fieldFilter"]
        path, value = wanted["field"]["fieldPath"], wanted["value"]
        found = [d for d in found if d["fields"].get(path) == value]
    for order in query.get("orderBy", []):
        path = order["field"]["fieldPath"]
        found = [d for d in found if path in d["fields"]]
        found.sort(key=lambda d: d["fields"][path]["stringValue"], reverse=order.get("direction") == "DESCENDING")
    offset = query.get("offset", 0)
    return [{"document": d} for d in found[offset:][:query.get("limit")]]


def plain_seconds(documents, lines):
    start = time.perf_counter()
    for line in lines:
        json.dumps({"result": plain_answer(documents, json.loads(line))})
    return (time.perf_counter() - start) / len(lines)


def measure_requests(seed):
    made = list(many_documents(random.Random(seed)))
    documents = {w["update"]["name"]: w["update"] for request in made for w in request["commit"]["writes"]}
    before = best_of(script_of(made), RUNS)[0]
    # (So many of each that they take about a second: the making of the documents takes a quarter of one, and varies.)
    for name, request, times in (
            ("a filter that ten meet", rare, 200), ("an order with limit 50", ordered, 100),
            ("an order with offset 9,950", ordered_whole, 100), ("a read of 100 names", hundred, 1000)):
        rand = random.Random(seed)
        asked = [request(rand) for _ in range(times)]
        taken = (best_of(script_of(made + asked), RUNS)[0] - before) / times
        plain = min(plain_seconds(documents, [json.dumps(one) for one in asked]) for _ in range(RUNS))
        looked_at = 100 if request is hundred else MANY
        print("%s: %.2f ms, %.0f ns a document; Python %.2f ms, %.0f ns" % (
            name, taken * 1e3, taken * 1e9 / looked_at, plain * 1e3, plain * 1e9 / looked_at))


def held(script):
    """The seconds of a run, and the bytes that it takes at its peak, its script and those of a run without lines apart."""
    seconds, peak, _ = best_of(script, 1)
    return seconds, (peak - best_of(b"", 3)[1]) * 1024 - len(script)


def measure_memory(name, lines, seed, fields):
    _, more = held(script_of(documents(lines, random.Random(seed), fields, lines)))
    print("%s: %d documents, %.0f bytes each" % (name, lines, more / lines))


def measure_history(commits, seed):
    """What many commits to few names hold, with compactions and without."""
    made = script_of(documents(commits, random.Random(seed), one_field, 1000)).splitlines(keepends=True)
    for name, every in (("without a compaction", None), ("with a compaction at every 10,000", 10000)):
        lines = []
        for i, line in enumerate(made):
            lines.append(line)
            if every and (i + 1) % every == 0:
                lines.append(b'{"compact":"%s"}\n' % moment(i + 1).encode())
        seconds, more = held(b"".join(lines))
        print("%d commits to 1,000 names %s: %.1f s, %.0f MB beside the script, %.0f bytes a commit" % (
            commits, name, seconds, more / 1e6, more / commits))


def large_documents(rand):
    """A commit of 500 documents, each with a map of many maps of ten fields."""
    writes = []
    for i in range(500):
        fields = {"m%02d" % k: {"mapValue": {"fields": ten_fields(rand)}} for k in range(26)}
        writes.append({"update": {"name": "%s/c/d%03d" % (DOCUMENTS, i), "fields": fields}})
    return {"commit": {"database": ROOT, "writes": writes}}


def small_values(rand):
    """A commit of one array of as many small values as a document may have."""
    values = [{"integerValue": str(rand.randrange(10))} for _ in range(75000)]
    values += [{"nullValue": None} for _ in range(270000)] + [{"booleanValue": rand.random() < 0.5} for _ in range(140000)]
    return {"commit": {"database": ROOT, "writes": [
        {"update": {"name": DOCUMENTS + "/c/a", "fields": {"a": {"arrayValue": {"values": values}}}}}]}}


def long_mask(rand):
    """A commit of an update with a mask of very many paths, in no order."""
    paths = ["f%06d" % i for i in range(1000000)]
    rand.shuffle(paths)
    return {"commit": {"database": ROOT, "writes": [
        {"update": {"name": DOCUMENTS + "/c/a"}, "updateMask": {"fieldPaths": paths}}]}}


def many_appends(rand):
    """A commit of very many transforms of one array, each of which appends one element."""
    transforms = [{"fieldPath": "a", "appendMissingElements": {"values": [{"integerValue": str(rand.randrange(100000))}]}}
                  for _ in range(120000)]
    return {"commit": {"database": ROOT, "writes": [
        {"update": {"name": DOCUMENTS + "/c/a"}, "updateTransforms": transforms}]}}


def measure_line(name, request):
    script = script_of([request])
    seconds, peak, written = best_of(script, 3)
    less = best_of(b"", 3)[1]
    print("%s: a line of %.1f MB, %.2f s, %.1f times its bytes, %s" % (
        name, len(script) / 1e6, seconds, (peak - less) * 1024 / len(script), written[:40].decode()))


def fields_of(count, rand):
    """The names of so many fields, in no order."""
    names = ["f%07d" % i for i in range(count)]
    rand.shuffle(names)
    return names


def many_filters(count, rand):
    return run_query(where={"compositeFilter": {"op": "AND", "filters": [
        {"unaryFilter": {"op": "IS_NOT_NULL", "field": {"fieldPath": name}}} for name in fields_of(count, rand)]}})


def many_orders(count, rand):
    return run_query(orderBy=[{"field": {"fieldPath": name}} for name in fields_of(count, rand)])


def many_cursor_values(count, rand):
    return run_query(orderBy=[{"field": {"fieldPath": name}} for name in fields_of(count, rand)],
                     startAt={"values": [{"integerValue": str(rand.randrange(100))} for _ in range(count)]})


def many_selected(count, rand):
    return run_query(select={"fields": [{"fieldPath": name} for name in fields_of(count, rand)]})


def many_names(count, rand):
    return {"batchGetDocuments": {"database": ROOT, "documents": [DOCUMENTS + "/c/" + name for name in fields_of(count, rand)]}}


def measure_growth(name, make, count):
    """The time of requests of a quarter, half and all of so many, beside a document that has one of the fields."""
    there = commit(DOCUMENTS + "/c/a", {"f0000000": {"integerValue": "1"}})
    told = []
    for part in (4, 2, 1):
        script = script_of([there, make(count // part, random.Random(part))])
        told.append("%.1f MB %.2f s" % (len(script) / 1e6, best_of(script, 3)[0]))
    print("%d %s: %s" % (count, name, ", ".join(told)))


def main():
    lines = int(sys.argv[1]) if len(sys.argv) > 1 else 20000
    seed = int(sys.argv[2]) if len(sys.argv) > 2 else 1
    # Builds it first, where it isn't built.
    subprocess.run([SCRIPT, "replay"], stdin=subprocess.DEVNULL, check=True)
    script, program = (min(timed_fsemu(os.devnull, it)[0] for _ in range(4 * RUNS)) for it in (SCRIPT, FSEMU))
    print("no lines: ./fsemu %.0f ms, the program %.0f ms" % (script * 1e3, program * 1e3))
    for name, requests in (("mixed", mixed), ("commits", commits), ("reads", reads), ("old", old_reads)):
        measure(name, requests(lines, random.Random(seed)))
    measure_requests(seed)
    measure_beside()
    measure_transactions(lines, seed)
    measure_listening(lines, seed)
    measure_memory("one integer", 5 * lines, seed, one_field)
    measure_memory("ten fields", 5 * lines, seed, ten_fields)
    measure_history(50 * lines, seed)
    for name, request in (("documents", large_documents), ("small values", small_values), ("mask", long_mask), ("appends", many_appends)):
        measure_line(name, request(random.Random(seed)))
    for name, make, count in (
            ("filters", many_filters, 137000), ("orders", many_orders, 265000), ("cursor values", many_cursor_values, 157000),
            ("selected paths", many_selected, 400000), ("names", many_names, 155000)):
        measure_growth(name, make, count)


if __name__ == "__main__":
    main()
