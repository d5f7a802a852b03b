"""What the libraries must answer to lines, stories and outputs: each row has an input and the answer that was worked out for it by hand."""

LONG = "a" * 129
LONGEST = "a" * 128

# a value's type and its JSON, and the JSON that is written for it, or why there is none
VALUES = [
    *((f'{code} "{text}"', f'"{text}"') for code, text in (
        ("INT64", "-9223372036854775808"),
        ("INT64", "9223372036854775807"),
        ("NUMERIC", "-99999999999999999999999999999.999999999"),
        ("NUMERIC", "99999999999999999999999999999.999999999"),
        ("STRING", ""),
        ("BYTES", ""),
        ("BYTES", "AP8="),
        ("DATE", "0001-01-01"),
        ("DATE", "9999-12-31"),
        ("TIMESTAMP", "0001-01-01T00:00:00Z"),
        ("TIMESTAMP", "1969-12-31T23:59:59Z"),
        ("TIMESTAMP", "9999-12-31T23:59:59.999999Z"),
    )),
    ('NUMERIC "-0.50"', '"-0.5"'),
    ('NUMERIC "-0.0"', '"0"'),
    ('NUMERIC "007.0000000010"', '"7.000000001"'),
    ('INT64 "-007"', '"-7"'),
    ('INT64 "-0"', '"0"'),
    ("INT64 -5", '"-5"'),
    ('TIMESTAMP "2024-05-01T00:00:01.500Z"', '"2024-05-01T00:00:01.500000Z"'),
    ("DATE null", "null"),
    ("BOOL true", "true"),
    ('INT64 "9223372036854775808"', "Range"),
    ('INT64 "+1"', "BadText"),
    ('NUMERIC "0.0000000001"', "Range"),
    ('NUMERIC "100000000000000000000000000000"', "Range"),
    ('NUMERIC "1."', "BadText"),
    ('BYTES "AP8"', "BadText"),
    ('DATE "0000-12-31"', "Range"),
    ('DATE "2023-02-29"', "Range"),
    ('DATE "2023-2-9"', "BadText"),
    ('TIMESTAMP "2024-05-01T00:00:00.0000001Z"', "Range"),
    ('BOOL "true"', "WrongKind"),
]

# the place of the row of T that has the value as its key, by its bytes
PLACES = [
    ("INT64 1", "5400" "02" "8000000000000001"),
    ('NUMERIC "-0.000000002"', "5400" "03" "7ffffffffffffffffffffffffffffffe"),
    ('DATE "1970-09-14"', "5400" "06" "80000100"),
    ('TIMESTAMP "1969-12-31T23:59:59.999999Z"', "5400" "07" "7fffffffffffffff"),
    ('TIMESTAMP "0001-01-01T00:00:00Z"', "5400" "07" + "%016x" % (2 ** 63 - 62135596800000000)),
    ('DATE "0001-01-01"', "5400" "06" + "%08x" % (2 ** 31 - 719162)),
    ("INT64 null", "5400" "00"),
    ("BOOL true", "5400" "01" "01"),
    ('STRING "a\\u0000b"', "5400" "04" "61" "00ff" "62" "0000"),
    ('BYTES "CQA="', "5400" "05" "09" "00ff" "0000"),
]

# a stamp's microseconds since 1970 and the text that is written for it
STAMPS = [
    ("2024-05-01T01:01:01Z", "1714525261000000 2024-05-01T01:01:01Z"),
    ("2024-02-29T00:00:00.5Z", "1709164800500000 2024-02-29T00:00:00.500000Z"),
    ("1970-01-01T00:00:00.000001000Z", "1 1970-01-01T00:00:00.000001Z"),
    ("9999-12-31T23:59:59.999999Z", "253402300799999999 9999-12-31T23:59:59.999999Z"),
    ("2024-02-30T00:00:00Z", "Range"),
    ("1970-01-01T00:00:00Z", "Range"),
    ("9999-12-31T23:59:59.9999999Z", "Range"),
    ("2024-05-01T00:00:00.0000001Z", "TooFine"),
    ("2024-05-01 00:00:00Z", "Shape 10"),
    ("2024-05-01T00:00:00.0123456789Z", "Shape 29"),
]


def at(text, place):
    return text, f"At {place}"


STATEMENTS = [
    *((text, "read") for text in (
        "drop CHANGE stream `for` ;",
        "create change stream s for a(), b(c,d) , e;",
        "CREATE TABLE t (a INT64 NOT NULL, b STRING(MAX), c bytes ( -10 ) ,) primary key (a asc, b);",
        "alter table t add column c string(1234567890123456789)",
        "alter change stream s set for ALL",
        "alter change stream s drop for all",
        "alter change stream s set options (a = null, b='x\"', c=\"y'\")",
        "create change stream options options (a = true)",
        "\tDROP \tCHANGE STREAM timestamp ",
        f"drop change stream {LONGEST}",
    )),
    at("CREATE STREAM S", 7),
    at("", 0),
    at("drop change stream for ;", 19),
    at("drop change stream s ; ;", 23),
    at("drop change stream  ", 20),
    at("create change stream s for a(,)", 29),
    at("create change stream s for a(b,)", 31),
    at("create change stream s for a,", 29),
    at("create change stream s for a 'x", 29),
    at("create change stream s options ()", 32),
    at("create table t (a int64,,) primary key (a)", 24),
    at("create table t (a int64 null) primary key (a)", 24),
    at("create table t (a int64) primary key (a desc)", 40),
    at("create table t (a int64) primary key (a,)", 40),
    at("create table t (a string(12345678901234567890)) primary key (a)", 25),
    at("create table t (a string(-)) primary key (a)", 25),
    at("create table t (null int64) primary key (a)", 16),
    at("create table t () primary key (a)", 16),
    at("alter table t add column c date not null", 32),
    at("alter change stream s drop for a", 31),
    at("create change stream s options (a = 'b\\')", 36),
    at("drop change stream `1`", 19),
    at(f"drop change stream {LONG}", 19),
    at("create change stream s ?", 23),
]

QUERIES = [
    *((text, "read") for text in (
        "select changerecord from f()",
        'SELECT ChangeRecord FROM `null` (`asc` => 1, Timestamp => TIMESTAMP "x");',
        "select changerecord from f(timestamp => null)",
        "select changerecord from f(timestamp 'x', 'y', null, -1, timestamp 'z')",
        f"select changerecord from {'f' * 133}(0)",
    )),
    at("select changerecord from f(1,2,3,4,5,6)", 37),
    at("select changerecord from f(1,2,3,4,5,)", 37),
    at("select changerecord from f(timestamp)", 36),
    at("select changerecord from f(timestamp => 1, 2)", 43),
    at("select changerecord from f(1, a => 2)", 30),
    at("select changerecord from f(1, timestamp => 2)", 40),
    at("select changerecord from f(a => 1,)", 34),
    at("select changerecord from f(1 2)", 29),
    at("select changerecord from f(all)", 27),
    at(f"select changerecord from {'f' * 134}(0)", 25),
    at("select changerecord from f(a = 1)", 29),
    at("select * from f()", 7),
    at("select changerecord from f(1) ; x", 32),
    at("select changerecord from f(1,2,3,4,5,", 37),
]

RECORDS = [
    ('{"heartbeat_record":[{}]}', "Member timestamp"),
    (
        '{"child_partitions_record":[{"child_partitions":[],"record_sequence":"0","start_timestamp":"2024-05-01T00:00:06Z"}],"heartbeat_record":[{"timestamp":"2024-05-01T00:00:06Z"}]}',
        "ArrayCount",
    ),
    *((line, line) for line in (
        '{"child_partitions_record":[],"data_change_record":[{"column_types":[{"is_primary_key":true,"name":"K","ordinal_position":1,"type":{"code":"INT64"}},{"is_primary_key":false,"name":"A","ordinal_position":2,"type":{"code":"INT64"}},{"is_primary_key":false,"name":"B","ordinal_position":3,"type":{"code":"STRING"}}],"commit_timestamp":"2024-05-01T00:00:01Z","is_last_record_in_transaction_in_partition":true,"is_system_transaction":false,"mod_type":"INSERT","mods":[{"keys":{"K":"1"},"new_values":{"A":"5","B":"x"},"old_values":{}}],"number_of_partitions_in_transaction":1,"number_of_records_in_transaction":1,"record_sequence":"00000000","server_transaction_id":"t1","table_name":"T","transaction_tag":"","value_capture_type":"OLD_AND_NEW_VALUES"}],"heartbeat_record":[]}',
        '{"child_partitions_record":[{"child_partitions":[{"parent_partition_tokens":["S-00001"],"token":"S-00003"},{"parent_partition_tokens":["S-00001","S-00002"],"token":"S-00004"}],"record_sequence":"00000000","start_timestamp":"2024-05-01T00:00:06Z"}],"data_change_record":[],"heartbeat_record":[]}',
        '{"child_partitions_record":[],"data_change_record":[],"heartbeat_record":[{"timestamp":"2024-05-01T00:00:06.500000Z"}]}',
    )),
    (
        # an unknown member, numbers as JSON numbers, and absent members
        '{"data_change_record":[{"commit_timestamp":"2024-05-01T00:00:01.500000000Z","record_sequence":"00000000","server_transaction_id":"t9","is_last_record_in_transaction_in_partition":true,"table_name":"T","column_types":[{"name":"K","type":{"code":"INT64"},"is_primary_key":true,"ordinal_position":1},{"name":"A","type":{"code":"INT64"},"is_primary_key":false,"ordinal_position":2}],"mods":[{"keys":{"K":7},"new_values":{"A":8},"old_values":{}}],"mod_type":"INSERT","value_capture_type":"NEW_VALUES","number_of_records_in_transaction":1,"number_of_partitions_in_transaction":1,"extra":1}]}',
        '{"child_partitions_record":[],"data_change_record":[{"column_types":[{"is_primary_key":true,"name":"K","ordinal_position":1,"type":{"code":"INT64"}},{"is_primary_key":false,"name":"A","ordinal_position":2,"type":{"code":"INT64"}}],"commit_timestamp":"2024-05-01T00:00:01.500000Z","is_last_record_in_transaction_in_partition":true,"is_system_transaction":false,"mod_type":"INSERT","mods":[{"keys":{"K":"7"},"new_values":{"A":"8"},"old_values":{}}],"number_of_partitions_in_transaction":1,"number_of_records_in_transaction":1,"record_sequence":"00000000","server_transaction_id":"t9","table_name":"T","transaction_tag":"","value_capture_type":"NEW_VALUES"}],"heartbeat_record":[]}',
    ),
    (
        # texts that hold trees, and whole numbers as texts
        '{"child_partitions_record":null,"data_change_record":[{"commit_timestamp":"2024-05-01T00:00:01Z","record_sequence":"3","server_transaction_id":"t9","is_last_record_in_transaction_in_partition":false,"table_name":"T","column_types":[{"name":"K","type":"{\\"code\\":\\"INT64\\"}","is_primary_key":true,"ordinal_position":"1"}],"mods":[{"keys":"{\\"K\\":\\"7\\"}","new_values":null}],"mod_type":"DELETE","value_capture_type":"NEW_ROW","number_of_records_in_transaction":"1","number_of_partitions_in_transaction":"02","transaction_tag":"x","is_system_transaction":true}]}',
        '{"child_partitions_record":[],"data_change_record":[{"column_types":[{"is_primary_key":true,"name":"K","ordinal_position":1,"type":{"code":"INT64"}}],"commit_timestamp":"2024-05-01T00:00:01Z","is_last_record_in_transaction_in_partition":false,"is_system_transaction":true,"mod_type":"DELETE","mods":[{"keys":{"K":"7"},"new_values":{},"old_values":{}}],"number_of_partitions_in_transaction":2,"number_of_records_in_transaction":1,"record_sequence":"00000003","server_transaction_id":"t9","table_name":"T","transaction_tag":"x","value_capture_type":"NEW_ROW"}],"heartbeat_record":[]}',
    ),
]

TABLE = ("ddl CREATE TABLE T (K INT64 NOT NULL, A INT64, B STRING(MAX)) PRIMARY KEY (K)", "taken")
STREAM = ("ddl CREATE CHANGE STREAM S FOR T", "taken")
INSERT = ("insert t1 1 K=1 A=5 B=x", "taken")


def ddl(statement, answer="taken"):
    return f"ddl {statement}", answer


# lines of a story, each with its answer
STORIES = {
    "tables": [
        TABLE,
        (TABLE[0], "a table of this name is there"),
        ddl("ALTER TABLE U ADD COLUMN C BOOL", "there is no table U"),
        ddl("CREATE TABLE U (K DATE) PRIMARY KEY (L)", "there is no column L"),
        ddl("ALTER TABLE T ADD COLUMN A BOOL", "a list has twice the column A"),
        ddl("ALTER TABLE T ADD COLUMN C BYTES(10485761)", "a length is 1 to 2621440, of BYTES to 10485760"),
        ddl("ALTER TABLE T ADD COLUMN C BYTES(10485760)"),
        ddl("CREATE TABLE W (" + "".join(f"C{it} INT64, " for it in range(1025)) + ") PRIMARY KEY (C0)", "more than 1024 columns"),
    ],
    "streams": [
        TABLE,
        ddl("CREATE CHANGE STREAM S FOR U", "there is no table U"),
        ddl("CREATE CHANGE STREAM S FOR T(Z)", "there is no column Z"),
        ddl("CREATE CHANGE STREAM S FOR T(K)", "a watch lists the key column K"),
        ddl("CREATE CHANGE STREAM S FOR T(A, A)", "a list has twice the column A"),
        ddl("CREATE CHANGE STREAM S OPTIONS (colour = 'red')", "unknown, twice or of a wrong value: colour"),
        ddl("CREATE CHANGE STREAM S FOR T OPTIONS (retention_period = '8d')", "a retention is 24h to 168h or 1d to 7d"),
        ddl("CREATE CHANGE STREAM S FOR ALL OPTIONS (exclude_insert = TRUE)", "this statement or option is not built"),
        ddl("CREATE CHANGE STREAM S FOR T(A), T(B)", "a watch has twice the table T"),
        ddl("DROP CHANGE STREAM S", "this statement or option is not built"),
    ],
    "a crowd of streams": [
        ddl("CREATE CHANGE STREAM Q1"),
        ddl("CREATE CHANGE STREAM Q1", "a stream of this name is there"),
        TABLE,
        *(ddl(f"CREATE CHANGE STREAM S{it} FOR ALL") for it in (1, 2, 3)),
        ddl("CREATE CHANGE STREAM S4 FOR ALL", "more than 3 streams would watch the column A"),
        *(ddl(f"CREATE CHANGE STREAM Q{it}") for it in range(2, 8)),
        ddl("CREATE CHANGE STREAM Q8", "more than 10 streams"),
    ],
    "refused transactions": [
        TABLE,
        INSERT,
        ("insert t2 2 K=1 A=5", "RowThere"),
        ("update t2 2 K=9 A=5", "NoRow"),
        ("update t1 2 K=1 A=5", "IdUsed"),
        ("update t2 1 K=1 A=5", "SharedStampRow t1"),
        ("update t2 0 K=1 A=5", "StampBack"),
        ("update t2 2 K=1 A=x", "BadValue A"),
        ("update t2 2 K=1 K=2", "KeyColumnSet K"),
        ("update t2 2 K=1 Z=2", "NoColumn Z"),
        ("update t2 2 K=1 A=6", "taken"),
    ],
}


def story(stream, *lines):
    return "".join(line + "\n" for line in (TABLE[0], f"ddl CREATE CHANGE STREAM S FOR {stream}", *lines))


def change(kind, at, tx, new="", old="", key="1"):
    return f'{{"key":{{"K":"{key}"}},"kind":"{kind}","new":{{{new}}},"old":{{{old}}},"stamp":"2024-05-01T00:00:0{at}Z","table":"T","tx":"{tx}"}}\n'


THREE = (INSERT[0], "update t2 2 K=1 A=6", "delete t3 3 K=1")
UPDATES = (INSERT[0], "update t2 2 K=1 B=y", "update t3 3 K=1 A=5")
BOTH = '"A":"5","B":"x"'


def of_type(name):
    return story(f"T OPTIONS (value_capture_type = '{name}')", *THREE)


# a story, and the changes that its stream captures
CAPTURED = [
    (of_type("OLD_AND_NEW_VALUES"), change("INSERT", 1, "t1", BOTH) + change("UPDATE", 2, "t2", '"A":"6"', '"A":"5"') + change("DELETE", 3, "t3", "", '"A":"6","B":"x"')),
    (of_type("NEW_VALUES"), change("INSERT", 1, "t1", BOTH) + change("UPDATE", 2, "t2", '"A":"6"') + change("DELETE", 3, "t3")),
    (of_type("NEW_ROW"), change("INSERT", 1, "t1", BOTH) + change("UPDATE", 2, "t2", '"A":"6","B":"x"') + change("DELETE", 3, "t3")),
    (of_type("NEW_ROW_AND_OLD_VALUES"), change("INSERT", 1, "t1", BOTH) + change("UPDATE", 2, "t2", '"A":"6","B":"x"', '"A":"5"') + change("DELETE", 3, "t3", "", '"A":"6","B":"x"')),
    (story("T()", *THREE), change("INSERT", 1, "t1") + change("DELETE", 3, "t3")),
    (story("T(A)", *UPDATES), change("INSERT", 1, "t1", '"A":"5"') + change("UPDATE", 3, "t3", '"A":"5"', '"A":"5"')),
    (story("T", "insert a 1 K=1 A=5 B=x", "insert b 1 K=2 A=5 B=x"), change("INSERT", 1, "a", BOTH) + change("INSERT", 1, "b", BOTH, key="2")),
]

# a story, and the ordinals and names of the columns that its stream tells of each write
COLUMNS = [(story("T(B)", INSERT[0]), "1 K, 3 B, \n")]

ONE = change("INSERT", 1, "t1", BOTH)
WATERMARK = '{"watermark":"2024-05-01T00:00:01Z"}\n'

# outputs, and the verdict against one insert at a second that is the end too
VERDICTS = [
    (ONE + WATERMARK, "Complete"),
    (ONE, "Prefix"),
    ("", "Prefix"),
    (ONE + ONE, "OutOfOrder 2"),
    (WATERMARK + ONE, "WatermarkEarly 1 t1"),
    (change("INSERT", 1, "t2", BOTH, key="2") + WATERMARK, "Extra 1"),
    ('{"key":{}}\n{"watermark":"2024-05-01T00:00:01.0Z"}\n', "BadLine 2"),
    ('{"key":{}}\nno line', "BadLine 2"),
    ('{"key":{}}\n{"key":{}}', "NoEnd 2"),
]



def check_rows(note, measure, path, what, command, rows):
    """Each row's line with its answer, all in one run."""
    with open(path, "w", encoding="utf-8", newline="") as file:
        file.write("".join(line + "\n" for line, _ in rows))
    ran = measure([command, path])
    # the program ends its answer with a line's end of its own
    found = ran.stdout.decode().split("\n")[: len(rows)]
    note(ran.returncode == 0 and len(found) == len(rows), f"{what}: all lines are answered", ran.stdout[:400])
    for (line, want), answer in zip(rows, found):
        note(answer.rstrip() == want, f"{what}: {line[:200]}", answer)


def check_story(note, measure, path, command, text, want):
    with open(path, "w", encoding="utf-8", newline="") as file:
        file.write(text)
    ran = measure([command, path])
    note(ran.returncode == 0 and ran.stdout.decode() == want + "\n", f"{command}: {text[-200:]}", ran.stdout)


def check_verdict(note, measure, path, output, want):
    with open(path, "w", encoding="utf-8", newline="") as file:
        file.write(story("T", INSERT[0]))
    with open(path + ".output", "w", encoding="utf-8", newline="") as file:
        file.write(output)
    ran = measure(["verdict", path, path + ".output"])
    note(ran.returncode == 0 and ran.stdout.decode() == want + "\n", f"verdict on {output[:200]}", ran.stdout)


def check(note, measure, path):
    for command, rows in (("values", VALUES), ("places", PLACES), ("stamps", STAMPS), ("statements", STATEMENTS), ("queries", QUERIES), ("lines", RECORDS)):
        check_rows(note, measure, path, command, command, rows)
    for name, rows in STORIES.items():
        check_rows(note, measure, path, name, "story", rows)
    for text, want in CAPTURED:
        check_story(note, measure, path, "captured", text, want)
    for text, want in COLUMNS:
        check_story(note, measure, path, "columns", text, want)
    for output, want in VERDICTS:
        check_verdict(note, measure, path, output, want)
