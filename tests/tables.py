"""Makes scripts of tables whose rows are written in short, and says of what they write whether it is as the rows say.

Of values `1` is an integer, `'x` a string, `@5` a time in microseconds, `^20` maps in maps of depth 20, `[ 1 null ]` an array and
`{ a: true }` a map. `*1500` is a name of 1,500 bytes."""
import base64
import datetime
import json
import re

DOCUMENTS = "projects/demo/databases/(default)/documents"
MISSING, EXISTS, OTHER_TIME = (404, "NOT_FOUND"), (409, "ALREADY_EXISTS"), (400, "FAILED_PRECONDITION")


# ---- values


def printed_time(micros):
    """A moment of microseconds since 1970 began."""
    seconds, rest = divmod(micros, 1_000_000)
    text = (datetime.datetime(1970, 1, 1) + datetime.timedelta(seconds=seconds)).isoformat()
    return text + ("" if rest == 0 else ".%03d" % (rest // 1000) if rest % 1000 == 0 else ".%06d" % rest) + "Z"


def at(n):
    """The time that is so many microseconds after the beginning of a script."""
    return printed_time(1_704_067_200_000_000 + n)


def long_name(word):
    return "x" * int(word[1:]) if word.startswith("*") else word


def scalar(word):
    if word in ("null", "true", "false"):
        return {"nullValue": None} if word == "null" else {"booleanValue": word == "true"}
    if word.startswith("'"):
        return {"stringValue": word[1:]}
    if word.startswith("@"):
        return {"timestampValue": printed_time(int(word[1:]))}
    if word.startswith("^"):
        return nested(int(word[1:]))
    return {"integerValue": str(int(word))}


def nested(depth):
    return {"nullValue": None} if depth == 1 else {"mapValue": {"fields": {"a": nested(depth - 1)}}}


def values(words):
    found = []
    while words and words[0] != "]":
        found.append(value(words))
    return found


def fields(words):
    found = {}
    while words and words[0] != "}":
        key = words.pop(0)
        assert key.endswith(":"), key
        found[long_name(key[:-1])] = value(words)
    return found


def value(words):
    word = words.pop(0)
    if word == "[":
        inner = {"arrayValue": some("values", values(words))}
    elif word == "{":
        inner = {"mapValue": some("fields", fields(words))}
    else:
        return scalar(word)
    words.pop(0)
    return inner


def some(member, content):
    """An object with this member, or without it where it would be empty."""
    return {member: content} if content else {}


def fields_of(text):
    return fields([] if text == "." else text.split())


# ---- writes


def cells(line, count):
    row = ["" if cell.strip() == "none" else cell.strip() for cell in line.split(" | ")]
    return row + [""] * (count - len(row))


def name(document):
    return f"{DOCUMENTS}/c/{document}"


def transform(text):
    path, word, *operand = text.split()
    made = {
        "append": ("appendMissingElements", lambda: {"values": values(operand)}),
        "remove": ("removeAllFromArray", lambda: {"values": values(operand)}),
        "time": ("setToServerValue", lambda: "REQUEST_TIME"),
    }
    member, content = made.get(word, (word, lambda: value(operand)))
    return {"fieldPath": long_name(path), member: content()}


def transforms(text):
    return [transform(one) for one in text.split(";") if one.strip()]


def write(text):
    document, condition, doing, given, changes = (text.split(",", 4) + [""] * 4)[:5]
    word, *mask = doing.split()
    if word == "delete":
        made = {"delete": name(document)}
    else:
        made = {"update": {"name": name(document), **some("fields", fields_of(given))}}
    if word == "merge":
        made["updateMask"] = some("fieldPaths", [long_name(path) for path in mask])
    if changes:
        made["updateTransforms"] = transforms(changes)
    if condition:
        made["currentDocument"] = {
            "exists": {"exists": True},
            "absent": {"exists": False},
        }.get(condition) or {"updateTime": at(int(condition))}
    return made


def line(**members):
    return json.dumps(members, ensure_ascii=False) + "\n"


def commit(writes):
    return line(session="s", commit={"database": DOCUMENTS.removesuffix("/documents"), "writes": writes})


def parts(text):
    return [one for one in text.split("/") if one]


def answers(out):
    return [json.loads(answer) for answer in out.splitlines()]


def told(found, wanted):
    return "" if found == wanted else f"{json.dumps(found)} in place of {json.dumps(wanted)}"


# ---- what commits come to

ALL = "abcd"


def refusal(message):
    kinds = {"missing": MISSING, "exists": EXISTS, "time": OTHER_TIME}
    code, status = next((kind for word, kind in kinds.items() if word in message), (400, "INVALID_ARGUMENT"))
    return {"error": {"code": code, "message": message, "status": status}, "session": "s"}


def result(text):
    time, _, changed = text.partition("=")
    made = {} if time == "-" else {"updateTime": at(int(time))}
    if changed:
        made["transformResults"] = [scalar(one) for one in changed.split(";")]
    return made


def document(id, text, created, updated):
    return {"createTime": at(created), "name": name(id), "updateTime": at(updated), **some("fields", fields_of(text))}


def after(before, changes):
    """The documents behind a commit at 9 that changes those of before so."""
    left = {id: document(id, text, 3, 5) for id, text in before.items()}
    for one in parts(changes):
        id, then = one.split(" ", 1)
        was, became = then.split(" > ")
        left.pop(id, None)
        if became != "-":
            left[id] = document(id, became.lstrip("*"), 9 if was == "-" or became.startswith("*") else 3, 9)
    return left


def of_commit(row):
    before, writes, changes, results = cells(row, 4)
    before = dict(one.split(" ", 1) for one in parts(before))
    script = "" if not before else (
        line(clock=at(2)) + commit([write(f"{id},,set,was: null") for id in before])
        + line(clock=at(4)) + commit([write(f"{id},,set,{text}") for id, text in before.items()])
    )
    script += line(clock=at(8)) + commit([write(one) for one in parts(writes)])
    script += line(session="s", batchGetDocuments={"database": DOCUMENTS.removesuffix("/documents"), "documents": [name(id) for id in ALL]})
    if changes.startswith("write"):
        answer, changes = refusal(changes), ""
    else:
        answer = {"result": {"commitTime": at(9), **some("writeResults", [result(one) for one in results.split()])}, "session": "s"}
    left = after(before, changes)

    def shown(out):
        *_, came, read = answers(out)
        found = {one["found"]["name"][-1]: one["found"] for one in read["result"] if "found" in one}
        return told(came, answer) or told(found, left)

    return script, shown


def of_transform(row):
    before, changes, wanted, results = cells(row, 4)
    script = line(clock="2024-01-01T00:00:00.123455Z") + commit([write(f"a,,set,{before},{changes}")])
    script += line(session="s", getDocument={"name": name("a")})

    def shown(out):
        came, read = answers(out)
        given = came["result"]["writeResults"][0].get("transformResults", [])
        return told(given, values(results.split())) or told(read["result"].get("fields", {}), fields_of(wanted))

    return script, shown


def of_rule(row):
    text, rule = cells(row, 2)

    def shown(out):
        (came,) = answers(out)
        message = came.get("error", {}).get("message", "")
        rules = message if message.endswith(" at commit.writes[0]") else ""
        return told(rules, "" if rule == "0" else f"E{rule} at commit.writes[0]")

    return commit([write(text)]), shown


# ---- what is read at each time


def set_n(text):
    path, n = text.replace("␀", "\0").split("=")
    where = f"{DOCUMENTS}/{path}"
    return {"delete": where} if n == "-" else {"update": {"name": where, "fields": {"n": {"integerValue": n}}}}


def batches(lines):
    """The script of the lines `5 < c/a=1 c/b=-`, each of which is a commit at a time."""
    script = ""
    for one in lines:
        time, sign, writes = one.partition(" < ")
        if sign:
            script += line(clock=at(int(time) - 1)) + commit([set_n(write) for write in writes.split()])
    return script


def n_of(found):
    return found["fields"]["n"]["integerValue"]


def numbers(answer):
    """What is read of the fields `n`, with `-` where no document is there, or the message of a refusal."""
    if "error" in answer:
        return answer["error"]["message"]
    found = answer["result"]
    if isinstance(found, dict):
        return n_of(found)
    shown = ["-" if "missing" in one else n_of(one.get("found") or one["document"]) for one in found if len(one) > 1]
    return " ".join(shown)


def query(scope, time):
    above, _, id = scope.rpartition("/")
    collection = {"collectionId": id.lstrip("*"), **some("allDescendants", id.startswith("**"))}
    parent = f"{DOCUMENTS}/{above}" if above else DOCUMENTS
    return line(session="s", runQuery={"parent": parent, "structuredQuery": {"from": [collection]}, "readTime": at(time)})


def reads(shown, floor):
    """The script that reads `c/a`, `c/b` and `c/d` at each time in three ways, and what each read tells behind a compaction."""
    script, wanted, names = "", [], [f"{DOCUMENTS}/c/{id}" for id in "abd"]
    for time, row in enumerate(shown + [None]):
        script += line(session="s", batchGetDocuments={"database": DOCUMENTS.removesuffix("/documents"), "documents": names, "readTime": at(time)})
        script += query("c", time) + line(session="s", getDocument={"name": names[0], "readTime": at(time)})
        if time < floor or row is None:
            bound = f"before {at(floor)}" if row else f"after {at(len(shown) - 1)}"
            wanted += [f"read time {at(time)} is {bound}"] * 3
        else:
            first = row.split()[0]
            wanted += [row, " ".join(n for n in row.split() if n != "-"), f"no document at {at(time)}" if first == "-" else first]
    return script, wanted


def tells(lines, wanted):
    return lambda out: told([numbers(it) for it in answers(out) if "commitTime" not in it.get("result", [])], wanted)


def in_history(lines):
    """Reads at all times after a compaction to each time, and after all of them one after another."""
    shown = [line.split(" = ")[1] for line in lines if " = " in line]
    begun = batches(lines) + line(clock=at(len(shown) - 1))
    again, all_told = begun, []
    for floor in range(len(shown)):
        script, wanted = reads(shown, floor)
        compacted = line(compact=at(floor)) + script
        again, all_told = again + compacted, all_told + wanted
        yield f"a compaction to {floor}", begun + compacted, tells(lines, wanted)
    yield "one compaction after another", again, tells(lines, all_told)


def in_scopes(lines):
    """Queries of the lines `3 ? c/a/**m = 2 6`, each at a time of a collection or of all with an id."""
    begun = batches(lines)
    for asked in lines:
        time, sign, rest = asked.partition(" ? ")
        if sign:
            scope, _, wanted = rest.partition(" =")
            yield asked, begun + query(scope.replace("␀", "\0"), int(time)), tells(lines, [wanted.strip()])


# ---- what queries answer, masks keep, and listeners are told


def put(id, given):
    return {"update": {"name": f"{DOCUMENTS}/t/{id}", **some("fields", json.loads(full(given)))}}


def full(text):
    return text.replace("~", DOCUMENTS)


def in_answers(lines):
    begun = commit([put(*one.split(" < ", 1)) for one in lines if " < " in one])
    for asked in lines:
        given, arrow, wanted = asked.partition(" =>")
        if arrow:
            script = line(session="s", runQuery={"parent": DOCUMENTS, "structuredQuery": json.loads(full(given))})
            yield asked, begun + script, answers_ids(wanted.split())


def answers_ids(wanted):
    def shown(out):
        *_, came = answers(out)
        return told([one["document"]["name"].split("/")[-1] for one in came["result"] if "document" in one], wanted)

    return shown


def of_kept(row):
    given, wanted = row.split(" => ")
    before, _, paths = given.partition(" |")
    script = commit([{"update": {"name": name("a"), "fields": json.loads(before)}}])
    script += line(session="s", getDocument={"name": name("a"), "mask": some("fieldPaths", paths.split())})

    def shown(out):
        _, read = answers(out)
        return told(read["result"].get("fields", {}), json.loads(wanted))

    return script, shown


def of_events(row):
    given, wanted = row.split(" => ")
    on, *states = given.split(" | ")
    if on.startswith("{"):
        target = {"query": {"parent": DOCUMENTS, "structuredQuery": json.loads(full(on))}}
    else:
        target = {"documents": {"documents": [f"{DOCUMENTS}/{path}" for path in on.split()]}}
    script = line(session="l", listen={"database": DOCUMENTS.removesuffix("/documents"), "addTarget": {"targetId": 1, **target}})
    for state in states:
        script += commit([{"delete": f"{DOCUMENTS}/t/1"} if state == "none" else put("1", state)])
    words = {"documentChange": "there", "documentDelete": "Leave", "documentRemove": "Leave"}

    def shown(out):
        events, event = [], "None"
        for it in answers(out)[3:]:
            said = next(iter(it.get("listen", {"": 0})))
            if said in words:
                event = words[said]
            elif said:  # the time of a snapshot, with which it ends
                events.append(event)
                event = "None"
        return told(events, ["there" if it in ("Enter", "Change") else it for it in wanted.split()])

    return script, shown


# ---- names and field paths


def long(pieces):
    return "".join(part * int(count or 1) for part, _, count in (piece.partition("*") for piece in pieces.split()))


def asked_for(kind, text):
    """The place at which a name is asked for, and the request that does."""
    if kind == "parent":
        return "runQuery.parent", {"runQuery": {"parent": text, "structuredQuery": {"from": [{"collectionId": "c"}]}}}
    if kind == "database":
        return "commit.database", {"commit": {"database": text}}
    if kind == "field":
        return "getDocument.mask.fieldPaths[0]", {"getDocument": {"name": name("a"), "mask": {"fieldPaths": [text]}}}
    if kind == "reference":
        found = {"update": {"name": name("a"), "fields": {"n": {"referenceValue": text}}}}
        place = "commit.writes[0].update.fields.n.referenceValue"
        return place, {"commit": {"database": DOCUMENTS.removesuffix("/documents"), "writes": [found]}}
    return "getDocument.name", {"getDocument": {"name": text}}


def at_path(names):
    """A document with the one field that a path of these names leads to."""
    inner = {"integerValue": "1"}
    for one in reversed(names[1:]):
        inner = {"mapValue": {"fields": {one: inner}}}
    return {names[0]: inner}


def of_name(row):
    given, _, wanted = row.partition(" =>")
    kind, _, text = given.partition(" ")
    wanted, text = wanted.strip(), full(long(text) if kind == "long" else text)
    place, request = asked_for(kind, text)
    script, kept = line(session="s", **request), None
    if kind == "field" and IS_NAMES.fullmatch(wanted):
        kept = at_path(wanted.split("|"))
        script = commit([{"update": {"name": name("a"), "fields": kept}}]) + script
    if kind == "document" and "/" in wanted:
        kept = f"{DOCUMENTS}/{wanted}"
        script = commit([{"update": {"name": text}}]) + script

    def shown(out):
        *_, came = answers(out)
        message = came.get("error", {}).get("message", "")
        refused = message if message.endswith(f" at {place}") else ""
        if kept:
            return told(came.get("result", {}).get("fields" if kind == "field" else "name"), kept)
        return told(refused, f"{wanted} at {place}" if IS_RULE.fullmatch(wanted) else "")

    return script, shown


IS_RULE = re.compile(r"P\d( \d+)?")
# (no field is called `__name__`, nor by no name)
IS_NAMES = re.compile(r"(?!P\d|__)[^|]+(\|[^|]+)*")


# ---- the order of values, and what they count


def kind_of(row):
    """The value of a line, as `bytes 0 255`, `array 1 2`, or `map a=foo b=bar`."""
    kind, content = row.replace("␀", "\0").replace("␡", "\x7f").split(" ", 1)
    words = content.split()
    if kind == "bytes":
        return {"bytesValue": base64.b64encode(bytes(int(word) for word in words)).decode()}
    if kind == "reference":
        project, database, path = content.split("/", 2)
        return {"referenceValue": f"projects/{project}/databases/{database}/documents/{path}"}
    if kind == "array":
        return {"arrayValue": some("values", [scalar(word) for word in words])}
    if kind == "map":
        return {"mapValue": some("fields", {key: {"stringValue": text} for key, text in (word.split("=") for word in words)})}
    if kind == "string":
        return {"stringValue": content}
    return scalar({"null": "null", "timestamp": f"@{content}"}.get(kind, content))


def in_order(rows):
    """The values stand in documents whose names go another way."""
    ids = [f"{389 * k % 997:03}" for k in range(len(rows))]
    script = commit([{"update": {"name": name(id), "fields": {"v": kind_of(row)}}} for id, row in zip(ids, rows)])
    asked = {"from": [{"collectionId": "c"}], "orderBy": [{"field": {"fieldPath": "v"}}]}
    yield "the values in their order", script + line(session="s", runQuery={"parent": DOCUMENTS, "structuredQuery": asked}), answers_ids(ids)


def of_size(row):
    """A long text beside the value makes the document too large, and so its size is told."""
    value, count = row.split(" => ")
    fields = {"n": kind_of(value), "z": {"stringValue": "z" * 1_048_576}}

    def shown(out):
        (came,) = answers(out)
        return told(came["error"]["message"], f"write 0: document has {int(count) + 2 + 1_048_577} bytes")

    return commit([{"update": {"name": name("a"), "fields": fields}}]), shown


# ---- what is read of a request

IS_REFUSAL = re.compile(r"(G|[TPEQ]\d+( \d+)?) at |method ")


class Same:
    """What a script writes has to be what another writes, which isn't that it can't be read."""

    def __init__(self, script):
        self.script = script

    def wrong(self, out, other):
        refused = [m for m in (it.get("error", {}).get("message", "") for it in answers(out)) if IS_REFUSAL.match(m)]
        return told(refused, []) or told(out, other)


def of_read(row):
    given, _, other = row.partition(" => ")
    on_session = '{"session":"s",%s\n'
    return on_session % given[1:], Same(on_session % (other or given)[1:])


OF = {"read.table": of_read, "names.table": of_name, "sizes.table": of_size, "kept.table": of_kept, "events.table": of_events, "commits.table": of_commit, "transforms.table": of_transform, "rules.table": of_rule}
IN = {"answers.table": in_answers, "order.table": in_order, "history.table": in_history, "scopes.table": in_scopes, "collections.table": in_scopes}


def in_table(name, lines):
    """Yields each case of a table: its name, its script, and what says of the transcript what is wrong with it."""
    lines = [line for line in lines if line]
    if name in IN:
        yield from IN[name](lines)
    else:
        for row in lines:
            yield row, *OF[name](row)
