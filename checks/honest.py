"""A reader of a change stream that knows nothing of how answers are made. It follows the partitions from the READ without a
token through their children, as Spanner's page says a reader does, holds each answer against what an honest server may
answer, and at the end all that it was told against the changes that are wanted of the same window."""
import json

from records import ORDER, change_lines

CHILDREN, DATA, BEAT = ORDER
MOST_RECORDS = 8192
MOST_MODS = 32


class Wrong(Exception):
    """What no honest server answers."""


def sure(holds, what):
    if not holds:
        raise Wrong(what)


def moment(text):
    """A stamp's text as something that can be compared."""
    return text[:19], text[20:-1].ljust(6, "0")


class Part:
    """A partition that was listed: its parents, its start, the records that it told, and from where to read on."""

    def __init__(self, token, parents, start):
        self.token = token
        self.parents = parents
        self.start = start
        self.next = start
        self.records = {}
        self.is_finished = False


class Answer:
    """One READ's lines as they come."""

    def __init__(self, start, end, now):
        self.start = moment(start)
        self.last = min(moment(end), moment(now))
        self.data = None
        self.beat = None
        self.children = []
        self.count = 0

    def told(self, stamp, what):
        sure(not self.children, f"{what} behind children")
        sure(self.start <= moment(stamp) <= self.last, f"{what} at {stamp} outside of the READ")
        sure(self.data is None or self.data <= moment(stamp), f"{what} at {stamp} behind later data")
        sure(self.beat is None or self.beat < moment(stamp), f"{what} at {stamp} behind a later heartbeat, or with it")

    def take(self, tree):
        """The kind of record and the record."""
        sure(sorted(tree) == ORDER and sum(len(tree[it]) for it in ORDER) == 1, f"a line has one record: {tree}")
        kind = next(it for it in ORDER if tree[it])
        record = tree[kind][0]
        if kind == DATA:
            self.told(record["commit_timestamp"], "data")
            self.data = moment(record["commit_timestamp"])
        elif kind == BEAT:
            self.told(record["timestamp"], "a heartbeat")
            self.beat = moment(record["timestamp"])
        else:
            sure(record["record_sequence"] == f"{len(self.children):08}", "sequences of child records count from 0")
            self.children.append(record)
        self.count += 1
        return kind, record


class Reader:
    """`ask` takes a moment and a query, and gives the status and what the console shows."""

    def __init__(self, ask, stream, window, beat=10000):
        self.ask = ask
        self.stream = stream
        self.start, self.end = window
        self.beat = beat
        self.parts = {}

    def read(self, now, token, start):
        text = "NULL" if token is None else f"'{token}'"
        query = f"SELECT ChangeRecord FROM READ_{self.stream} ('{start}', '{self.end}', {text}, {self.beat})"
        status, console = self.ask(now, query)
        lines = console.split("\n")
        sure(status == 0 and lines[-2:] == ["0 Ended", ""], f"{query} at {now}: {console[-200:]}")
        answer = Answer(start, self.end, now)
        for line in lines[:-3]:
            yield answer, json.loads(line)
        yield answer, json.loads(lines[-3])

    def begin(self, now):
        for answer, tree in self.read(now, None, self.start):
            if "closing" in tree:
                sure(tree == {"closing": "FINISHED"} and self.parts, "the first READ is finished with its children")
                return
            kind, record = answer.take(tree)
            sure(kind == CHILDREN and record["start_timestamp"] == self.start, f"the first READ tells of partitions alone, from its start on: {tree}")
            for child in record["child_partitions"]:
                sure(child["token"] not in self.parts and child["parent_partition_tokens"] == [], f"a first partition stands once and has no parents: {child}")
                self.parts[child["token"]] = Part(child["token"], [], record["start_timestamp"])

    def step(self, now, part):
        """One READ of a partition; whether there may be more at this moment."""
        for answer, tree in self.read(now, part.token, part.next):
            if "closing" in tree:
                return self.close(now, part, answer, tree)
            kind, record = answer.take(tree)
            if kind == DATA:
                self.data(part, record, tree)
            if kind == CHILDREN:
                self.children(part, answer, record)
        raise Wrong("no closing")

    def data(self, part, record, tree):
        part.next = record["commit_timestamp"]
        named = record["server_transaction_id"], record["record_sequence"]
        sure(part.records.setdefault(named, tree) == tree, f"a record differs where it is told again: {named}")

    def children(self, part, answer, record):
        start = moment(record["start_timestamp"])
        sure(all(it is None or it < start for it in (answer.start, answer.data, answer.beat)) and start <= answer.last, "children start behind all that was told")
        sure(all(it["start_timestamp"] == record["start_timestamp"] for it in answer.children), "children start together")
        for child in record["child_partitions"]:
            token, parents = child["token"], child["parent_partition_tokens"]
            sure(part.token in parents, f"{token} is no child of {part.token}")
            known = self.parts.setdefault(token, Part(token, parents, record["start_timestamp"]))
            sure((known.parents, known.start) == (parents, record["start_timestamp"]), f"{token} is listed otherwise than before")
        listed = [child["token"] for it in answer.children for child in it["child_partitions"]]
        sure(len(listed) == len(set(listed)), f"children stand once: {listed}")

    def close(self, now, part, answer, tree):
        if tree == {"closing": "CUT"}:
            sure(answer.count == MOST_RECORDS and not answer.children, f"cut behind {answer.count} records")
            sure(answer.data is not None and answer.start < answer.data, "a cut answer leads on")
            return True
        if tree == {"closing": "FINISHED"}:
            sure(answer.children or moment(self.end) <= moment(now), "finished without children before the end")
            part.is_finished = True
            return False
        sure(tree == {"closing": "CAUGHT_UP", "moment": now} and moment(now) < moment(self.end) and not answer.children, f"closed by {tree} at {now}")
        part.next = now
        return False

    def follow(self, moments):
        """Reads all partitions at each of the moments, which rise; at the last one all end."""
        self.begin(moments[0])
        for now in moments:
            waiting = True
            while waiting:
                ready = [it for it in self.parts.values() if not it.is_finished and all(parent in self.parts and self.parts[parent].is_finished for parent in it.parents)]
                for part in ready:
                    while self.step(now, part):
                        pass
                waiting = any(it.is_finished for it in ready)
        sure(all(it.is_finished for it in self.parts.values()), "a partition has no end")

    def trees(self):
        """The data records that each partition told, parents before their children."""
        done, order = set(), []
        while len(done) < len(self.parts):
            for part in self.parts.values():
                if part.token not in done and done.issuperset(part.parents):
                    done.add(part.token)
                    order.append(part)
        return [(it, list(it.records.values())) for it in order]


def rows_of(lines):
    """By each row its lines, in their order."""
    found = {}
    for line in lines:
        tree = json.loads(line)
        found.setdefault((tree["table"], json.dumps(tree["key"])), []).append(line)
    return found


def check_record(record):
    columns = record["column_types"]
    ordinals = [it["ordinal_position"] for it in columns]
    sure(ordinals == sorted(set(ordinals)) and ordinals[0] >= 1, f"columns rise: {columns}")
    sure(1 <= len(record["mods"]) <= MOST_MODS, f"{len(record['mods'])} mods")
    keys = {it["name"] for it in columns if it["is_primary_key"]}
    others = {it["name"] for it in columns if not it["is_primary_key"]}
    for mod in record["mods"]:
        sure(set(mod["keys"]) == keys and set(mod["new_values"]) | set(mod["old_values"]) == others, f"the columns of a mod: {mod}")


def check_transactions(told):
    """The sequences, the counts and the marks of each transaction's records."""
    found = {}
    for part, trees in told:
        for tree in trees:
            record = tree[DATA][0]
            check_record(record)
            found.setdefault(record["server_transaction_id"], []).append((part.token, record))
    for tx, records in found.items():
        sure(sorted(it["record_sequence"] for _, it in records) == [f"{it:08}" for it in range(len(records))], f"sequences of {tx}")
        sure(len({(it["commit_timestamp"], it["transaction_tag"], it["is_system_transaction"]) for _, it in records}) == 1, f"{tx} has one stamp and tag")
        counts = len(records), len({token for token, _ in records})
        sure(all((it["number_of_records_in_transaction"], it["number_of_partitions_in_transaction"]) == counts for _, it in records), f"counts of {tx}")
        for token in {it for it, _ in records}:
            there = [it for other, it in records if other == token]
            sequences = [int(it["record_sequence"]) for it in there]
            sure(sequences == list(range(sequences[0], sequences[0] + len(there))), f"{tx} in {token} has sequences {sequences}")
            sure([it["is_last_record_in_transaction_in_partition"] for it in there] == [False] * (len(there) - 1) + [True], f"the last record of {tx} in {token}")


def unlike(ask, stream, window, moments, wanted):
    """What is wrong with the answers, beside the lines of the window's changes in commit order; None where nothing is."""
    reader = Reader(ask, stream, window)
    try:
        reader.follow(moments)
        told = reader.trees()
        check_transactions(told)
        lines = [line for _, trees in told for tree in trees for line in change_lines(tree)]
        sure(sorted(lines) == sorted(wanted), f"{len(lines)} changes are told, {len(wanted)} are wanted: {sorted(set(lines) ^ set(wanted))[:2]}")
        sure(rows_of(lines) == rows_of(wanted), "the order within a row")
    except (Wrong, KeyError, ValueError, TypeError) as wrong:
        return repr(wrong)
    return None
