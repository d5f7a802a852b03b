"""Record lines against Python's json: what Python writes in any order and with texts in place of trees is read as the
record that it is, and what is written back is, member by member, what Python has.
"""
import base64
import copy
import datetime
import json
import random

ORDER = ["child_partitions_record", "data_change_record", "heartbeat_record"]
TYPES = ["BOOL", "INT64", "NUMERIC", "STRING", "BYTES", "DATE", "TIMESTAMP"]
MOST = 2 ** 63 - 1
TEXTS = ["", "x", "two words", 'a "quoted" one', "back\\slash", "tab\tand\nline", "\u0001\u001f\u007f", "caf\u00e9", "\u6f22\u5b57", "\U0001f600", "{\"a\":1}", "null"]


def written(tree):
    """The one way in which a tree is written: without blanks, members in the order of their names."""
    return json.dumps(tree, ensure_ascii=False, sort_keys=True, separators=(",", ":"))


def stamp(rng):
    moment = datetime.datetime(1970, 1, 1) + datetime.timedelta(seconds=rng.randrange(1, 253402300799))
    micros = rng.choice([0, 0, 1, 500000, rng.randrange(1000000)])
    fraction = "" if micros == 0 else ".%06d" % micros
    return moment.strftime("%Y-%m-%dT%H:%M:%S").rjust(19, "0") + fraction + "Z"


def value(rng, code):
    if rng.random() < 0.15:
        return None
    if code == "BOOL":
        return rng.random() < 0.5
    if code == "INT64":
        return str(rng.choice([0, 1, -1, MOST, -MOST - 1, rng.randrange(-(10 ** 12), 10 ** 12)]))
    if code == "NUMERIC":
        whole, parts = rng.randrange(10 ** 18), rng.choice([0, 5, 123456789, rng.randrange(10 ** 9)])
        text = f"{whole}" if parts == 0 else (f"{whole}." + "%09d" % parts).rstrip("0")
        return text if text == "0" else rng.choice(["", "-"]) + text
    if code == "STRING":
        return rng.choice(TEXTS)
    if code == "BYTES":
        return base64.b64encode(bytes(rng.randrange(256) for _ in range(rng.randrange(9)))).decode()
    day = datetime.date(1, 1, 1) + datetime.timedelta(days=rng.randrange(3652058))
    if code == "DATE":
        return "%04d-%02d-%02d" % (day.year, day.month, day.day)
    return "%04d-%02d-%02dT%02d:%02d:%02dZ" % (day.year, day.month, day.day, rng.randrange(24), rng.randrange(60), rng.randrange(60))


def data_record(rng):
    names = ["K"] + rng.sample(["A", "B", "C1", "Zeta", "a_long_name", "q", "w"], rng.randrange(7))
    codes = {name: rng.choice(TYPES) for name in names}
    codes["K"] = "INT64"
    columns = [{"name": name, "type": {"code": codes[name]}, "is_primary_key": name == "K", "ordinal_position": place + 1} for place, name in enumerate(names)]
    mods = []
    for key in range(rng.randrange(1, 5)):
        some = [name for name in names[1:] if rng.random() < 0.7]
        mods.append({
            "keys": {"K": str(key * rng.choice([1, -7]))},
            "new_values": {name: value(rng, codes[name]) for name in some},
            "old_values": {name: value(rng, codes[name]) for name in some if rng.random() < 0.5},
        })
    return {
        "commit_timestamp": stamp(rng),
        "record_sequence": "%08d" % rng.choice([0, 1, 99999999, rng.randrange(100000000)]),
        "server_transaction_id": rng.choice(["t1", "a-b_c", "x" * 64]),
        "is_last_record_in_transaction_in_partition": rng.random() < 0.5,
        "table_name": rng.choice(["T", "Table_2", "z" * 128]),
        "column_types": columns,
        "mods": mods,
        "mod_type": rng.choice(["INSERT", "UPDATE", "DELETE"]),
        "value_capture_type": rng.choice(["OLD_AND_NEW_VALUES", "NEW_VALUES", "NEW_ROW", "NEW_ROW_AND_OLD_VALUES"]),
        "number_of_records_in_transaction": rng.choice([1, 0, MOST, rng.randrange(1000)]),
        "number_of_partitions_in_transaction": rng.choice([1, 2, MOST]),
        "transaction_tag": rng.choice(["", "app=cart", "\u00e9"]),
        "is_system_transaction": rng.random() < 0.2,
    }


def child_record(rng):
    return {
        "start_timestamp": stamp(rng),
        "record_sequence": "%08d" % rng.randrange(100000000),
        "child_partitions": [{"token": "S-%05d" % rng.randrange(100000), "parent_partition_tokens": ["S-%05d" % it for it in range(rng.randrange(4))]} for _ in range(rng.randrange(4))],
    }


def record(rng):
    tree = {name: [] for name in ORDER}
    kind = rng.choice(ORDER + ["data_change_record"] * 3)
    if kind == "data_change_record":
        tree[kind] = [data_record(rng)]
    elif kind == "heartbeat_record":
        tree[kind] = [{"timestamp": stamp(rng)}]
    else:
        tree[kind] = [child_record(rng)]
    return tree


def shuffled(rng, tree):
    """The same tree, its members in another order."""
    if isinstance(tree, dict):
        items = [(name, shuffled(rng, it)) for name, it in tree.items()]
        rng.shuffle(items)
        return dict(items)
    if isinstance(tree, list):
        return [shuffled(rng, it) for it in tree]
    return tree


def loosened(rng, tree):
    """Another spelling of a record: texts for trees, numbers for texts, defaults left out, unknown members."""
    tree = copy.deepcopy(tree)
    for data in tree["data_change_record"]:
        codes = {column["name"]: column["type"]["code"] for column in data["column_types"]}
        for column in data["column_types"]:
            if rng.random() < 0.3:
                column["type"] = json.dumps(column["type"])
            if rng.random() < 0.2:
                column["ordinal_position"] = str(column["ordinal_position"])
        for mod in data["mods"]:
            for part in ("keys", "new_values", "old_values"):
                for name in mod[part]:
                    if codes[name] == "INT64" and mod[part][name] is not None and rng.random() < 0.5:
                        mod[part][name] = int(mod[part][name])
                if part != "keys" and mod[part] == {} and rng.random() < 0.5:
                    mod[part] = None
                    if rng.random() < 0.5:
                        del mod[part]
                elif rng.random() < 0.3:
                    mod[part] = json.dumps(mod[part])
            mod["unknown"] = {"deep": [1, 2.5, None]}
        data["record_sequence"] = rng.choice([data["record_sequence"], str(int(data["record_sequence"]))])
        for name in ("number_of_records_in_transaction", "number_of_partitions_in_transaction"):
            data[name] = rng.choice([data[name], str(data[name])])
        if data["transaction_tag"] == "":
            del data["transaction_tag"]
        if not data["is_system_transaction"]:
            del data["is_system_transaction"]
        data["mod_number"] = 7
    for child in tree["child_partitions_record"]:
        for it in child["child_partitions"]:
            if it["parent_partition_tokens"] == []:
                it["parent_partition_tokens"] = None
                if rng.random() < 0.5:
                    del it["parent_partition_tokens"]
    for name in ORDER:
        if tree[name] == []:
            tree[name] = None
            if rng.random() < 0.5:
                del tree[name]
    return shuffled(rng, tree)


def spelled(rng, tree):
    line = json.dumps(tree, ensure_ascii=rng.random() < 0.5, separators=rng.choice([(",", ":"), (", ", ": "), (" ,\t", "  :\r ")]))
    return rng.choice(["", " ", "\t"]) + line + rng.choice(["", "  "])


def changed(tree, kind, change):
    """A record's line after a change of its element."""
    tree = copy.deepcopy(tree)
    change(tree[kind][0])
    return written(tree)


def refusals(rng):
    """Lines that stand for no record, each with its refusal."""
    tree = {name: [] for name in ORDER}
    data = data_record(rng)
    data["column_types"] = [{"name": "K", "type": {"code": "INT64"}, "is_primary_key": True, "ordinal_position": 1}, {"name": "A", "type": {"code": "BOOL"}, "is_primary_key": False, "ordinal_position": 2}]
    data["mods"] = [{"keys": {"K": "1"}, "new_values": {"A": True}, "old_values": {}}]
    tree["data_change_record"] = [data]
    kind = "data_change_record"
    rows = [
        ("", "NotJson"), ("{", "NotJson"), ("nothing", "NotJson"), ("[]", "NotJson"), ("7", "NotJson"), ('{"a":1} x', "NotJson"), ("\ufeff{}", "NotJson"),
        ("{}", "ArrayCount"), (written({name: [] for name in ORDER}), "ArrayCount"),
        ('{"heartbeat_record":[{"timestamp":"2024-05-01T00:00:00Z"},{"timestamp":"2024-05-01T00:00:00Z"}]}', "ArrayCount"),
        ('{"heartbeat_record":[{}]}', "Member timestamp"),
        ('{"heartbeat_record":[{"timestamp":null}]}', "BadValue timestamp"),
        ('{"heartbeat_record":[{"timestamp":"2024-02-30T00:00:00Z"}]}', "BadValue timestamp"),
        ('{"heartbeat_record":[7]}', "BadValue heartbeat_record"),
        ('{"child_partitions_record":[{"start_timestamp":"2024-05-01T00:00:00Z","record_sequence":"0"}]}', "Member child_partitions"),
        ('{"child_partitions_record":[{"start_timestamp":"2024-05-01T00:00:00Z","record_sequence":"0","child_partitions":null}]}', "BadValue child_partitions"),
        ('{"child_partitions_record":[{"start_timestamp":"2024-05-01T00:00:00Z","record_sequence":"0","child_partitions":[{}]}]}', "Member token"),
    ]
    both = copy.deepcopy(tree)
    both["heartbeat_record"] = [{"timestamp": "2024-05-01T00:00:00Z"}]
    rows.append((written(both), "ArrayCount"))
    required = ["commit_timestamp", "record_sequence", "server_transaction_id", "is_last_record_in_transaction_in_partition", "table_name", "column_types", "mods", "mod_type", "value_capture_type", "number_of_records_in_transaction", "number_of_partitions_in_transaction"]
    for name in required:
        rows.append((changed(tree, kind, lambda it: it.pop(name)), f"Member {name}"))
        rows.append((changed(tree, kind, lambda it: it.update({name: None})), f"BadValue {name}"))

    def put(name, it):
        rows.append((changed(tree, kind, lambda data: data.update({name: it})), f"BadValue {name}"))

    put("record_sequence", "000000000")
    put("record_sequence", "")
    put("record_sequence", 5)
    put("server_transaction_id", "")
    put("server_transaction_id", "x" * 65)
    put("mod_type", "UPSERT")
    put("value_capture_type", "NEW")
    put("number_of_records_in_transaction", 2 ** 63)
    put("number_of_partitions_in_transaction", -1)
    put("mods", [])
    put("transaction_tag", 1)
    put("is_system_transaction", "false")
    put("is_last_record_in_transaction_in_partition", 1)
    rows.append((changed(tree, kind, lambda it: it["column_types"][1].update({"type": {"code": "FLOAT64"}})), "BadValue type"))
    rows.append((changed(tree, kind, lambda it: it["column_types"][1].update({"type": {}})), "BadValue type"))
    rows.append((changed(tree, kind, lambda it: it["column_types"][1].update({"type": "{"})), "BadValue type"))
    rows.append((changed(tree, kind, lambda it: it["column_types"][1].update({"ordinal_position": 2 ** 32})), "BadValue ordinal_position"))
    rows.append((changed(tree, kind, lambda it: it["column_types"][1].pop("name")), "Member name"))
    rows.append((changed(tree, kind, lambda it: it["mods"][0].pop("keys")), "Member keys"))
    rows.append((changed(tree, kind, lambda it: it["mods"][0]["new_values"].update({"A": "yes"})), "BadValue A"))
    rows.append((changed(tree, kind, lambda it: it["mods"][0]["new_values"].update({"Z": None})), "BadValue Z"))
    rows.append((changed(tree, kind, lambda it: it["column_types"].append(it["column_types"][1])), "BadValue A"))
    rows.append((" " * 8388609, "TooLong"))
    return rows


def cases(seed, count):
    """Lines, and what is to come out for each: the written line of the record, or its refusal."""
    rng = random.Random(seed)
    rows = []
    for _ in range(count):
        tree = record(rng)
        rows.append((written(tree), written(tree)))
        rows.append((spelled(rng, loosened(rng, tree)), written(tree)))
    return rows + refusals(rng)


def change_lines(tree):
    """The output lines of the changes that a record tells."""
    lines = []
    for data in tree["data_change_record"]:
        for mod in data["mods"]:
            stamp = data["commit_timestamp"]
            lines.append(written({"key": mod["keys"], "kind": data["mod_type"], "new": mod["new_values"], "old": mod["old_values"], "stamp": stamp, "table": data["table_name"], "tx": data["server_transaction_id"]}))
    return lines


WORKED = [
    # members in another order, numbers in place of texts, an unknown member
    ('{"data_change_record":[{"commit_timestamp":"2024-05-01T00:00:01.500000000Z","record_sequence":"00000000","server_transaction_id":"t9","is_last_record_in_transaction_in_partition":true,"table_name":"T","column_types":[{"name":"K","type":{"code":"INT64"},"is_primary_key":true,"ordinal_position":1},{"name":"A","type":{"code":"INT64"},"is_primary_key":false,"ordinal_position":2}],"mods":[{"keys":{"K":7},"new_values":{"A":8},"old_values":{}}],"mod_type":"INSERT","value_capture_type":"NEW_VALUES","number_of_records_in_transaction":1,"number_of_partitions_in_transaction":1,"extra":1}]}',
     '{"key":{"K":"7"},"kind":"INSERT","new":{"A":"8"},"old":{},"stamp":"2024-05-01T00:00:01.500000Z","table":"T","tx":"t9"}'),
    # one key twice
    ('{"data_change_record":[{"commit_timestamp":"2024-05-01T00:00:01Z","record_sequence":"0","server_transaction_id":"t9","is_last_record_in_transaction_in_partition":true,"table_name":"T","column_types":[{"name":"K","type":{"code":"INT64"},"is_primary_key":true,"ordinal_position":1}],"mods":[{"keys":{"K":"1"}},{"keys":{"K":"1"}}],"mod_type":"DELETE","value_capture_type":"NEW_VALUES","number_of_records_in_transaction":1,"number_of_partitions_in_transaction":1}]}',
     "KeyTwice T"),
    # a key column that the keys lack
    ('{"data_change_record":[{"commit_timestamp":"2024-05-01T00:00:01Z","record_sequence":"0","server_transaction_id":"t9","is_last_record_in_transaction_in_partition":true,"table_name":"T","column_types":[{"name":"K","type":{"code":"INT64"},"is_primary_key":true,"ordinal_position":1}],"mods":[{"keys":{}}],"mod_type":"DELETE","value_capture_type":"NEW_VALUES","number_of_records_in_transaction":1,"number_of_partitions_in_transaction":1}]}',
     "KeyMissing K"),
]


def check_changes(note, run, path):
    """The changes that records tell: some worked by hand, and those of random records whose keys differ."""
    rng = random.Random(20240502)
    rows = [(line, [answer]) for line, answer in WORKED]
    while len(rows) < 200:
        tree = record(rng)
        keys = [written(mod["keys"]) for data in tree["data_change_record"] for mod in data["mods"]]
        if len(keys) == len(set(keys)):
            rows.append((spelled(rng, loosened(rng, tree)), change_lines(tree)))
    with open(path, "w", encoding="utf-8", newline="") as file:
        for line, _ in rows:
            file.write(line + "\n")
    ran = run(["changes", path])
    answers = [it for it in ran.stdout.decode().split("\n") if it]
    wanted = [it for _, lines in rows for it in lines]
    note(ran.returncode == 0 and answers == wanted, "changes of record lines", f"status {ran.returncode}, {[pair for pair in zip(answers, wanted) if pair[0] != pair[1]][:1]}, {len(answers)} and {len(wanted)}")


def check(note, run, path):
    """Runs the program that reads and writes back each line of a file, and compares."""
    rows = cases(20240501, 400)
    with open(path, "w", encoding="utf-8", newline="") as file:
        for line, _ in rows:
            file.write(line + "\n")
    ran = run(["lines", path])
    check_changes(note, run, path)
    answers = ran.stdout.decode().split("\n")
    note(ran.returncode == 0 and len(answers) == len(rows) + 1, "record lines: an answer for each", f"status {ran.returncode}, {len(answers) - 1} answers to {len(rows)} lines")
    wrong = [(line[:300], wanted[:300], answer[:300]) for (line, wanted), answer in zip(rows, answers) if answer != wanted]
    note(not wrong, f"record lines: {len(rows)} lines of Python's json", f"{len(wrong)} differ, the first: {wrong[:1]}")
    compared = 0
    for (_, wanted), answer in zip(rows, answers):
        if wanted.startswith("{") and answer.startswith("{"):
            compared += json.loads(answer) == json.loads(wanted)
    note(compared == 800, "record lines: our lines, read by Python's json, member by member", compared)
