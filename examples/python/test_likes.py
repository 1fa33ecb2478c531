"""Two people like a post at the same time, in every order of their requests, and in both modes: no like is lost.

  python3 -m unittest discover examples/python"""
import itertools
import unittest

from fsemu import DATABASE, DOCUMENTS, Emulator, keep, replay, transaction

POST = f"{DOCUMENTS}/posts/a"
MODES = ["pessimistic", "optimistic"]


def begin(session):
    return {"session": session, "beginTransaction": {"database": DATABASE}}


def read(session, **more):
    return {"session": session, "getDocument": {"name": POST, **more}}


def set_likes(session, likes, **more):
    update = {"name": POST, "fields": {"likes": {"integerValue": str(likes)}}}
    return {"session": session, "commit": {"database": DATABASE, "writes": [{"update": update}], **more}}


def likes_in(reply):
    return int(reply["result"]["fields"]["likes"]["integerValue"])


def like(session):
    """What the app does: it reads the likes and writes one more, in a transaction that it retries when it is aborted. It yields each
    request, and gets the reply."""
    while True:
        begun = yield begin(session)
        id = begun["result"]["transaction"]
        likes = likes_in((yield read(session, transaction=id)))
        done = yield set_likes(session, likes + 1, transaction=id)
        if "result" in done:
            return
        assert done["error"]["status"] == "ABORTED", done


def run_in_order(order, mode):
    """Runs the app for two people, whose first requests come in this order. Then come all others of the one, and all of the other."""
    emulator = Emulator("--concurrency", mode)
    emulator.send(set_likes("setup", 0))
    people = {name: like(name) for name in "ab"}
    requests = {name: next(person) for name, person in people.items()}
    for name in [*order, *"a" * 9, *"b" * 9]:
        if name in requests:
            [reply] = emulator.send(requests[name])
            try:
                requests[name] = people[name].send(reply)
            except StopIteration:
                del requests[name]
    return emulator


class Likes(unittest.TestCase):
    def test_no_like_is_lost_in_any_order(self):
        for mode, order in itertools.product(MODES, sorted(set(itertools.permutations("aaabbb")))):
            emulator = run_in_order(order, mode)
            [reply] = emulator.send(read("check"))
            if likes_in(reply) != 2:
                again = keep(f"{mode}_{''.join(order)}", emulator.lines, emulator.options)
                self.fail(f"{likes_in(reply)} likes, not 2. Run it again by: {again}")

    def test_the_ids_of_transactions_are_known_beforehand(self):
        # The first commit draws 1, and the two begins draw 2 and 3.
        self.assertEqual(transaction(1), "AAAAAAAAAAE=")
        replies = replay([
            set_likes("setup", 0),
            begin("a"),
            begin("b"),
            read("a", transaction=transaction(2)),
            read("b", transaction=transaction(3)),
            set_likes("a", 1, transaction=transaction(2)),
            set_likes("b", 1, transaction=transaction(3)),
        ])
        self.assertEqual([reply["result"]["transaction"] for reply in replies[1:3]], [transaction(2), transaction(3)])
        self.assertEqual(replies[5]["error"]["message"], "conflict with 3")
        self.assertIn("commitTime", replies[6]["result"])


if __name__ == "__main__":
    unittest.main()
