"""Random transactions, each fixed by a seed and its number, which a volume and a plain database do alike."""

import random
import sqlite3

TABLES = """
create table done(number integer);
insert into done values(0);
create table items(id integer primary key, name text, amount integer, body blob);
create index items_by_name on items(name, amount);
create table pairs(a integer, b integer, primary key(a, b)) without rowid;
"""


def words(choose):
    return "".join(choose.choice("abcdefgh ") for _ in range(choose.randrange(1, 30)))


def body(choose):
    """Often short; sometimes over several pages, and of one byte alone."""
    length = choose.choice([0, 3, 40, 40, 300, 3000, 9000])
    return bytes([choose.randrange(256)]) * length if choose.random() < 0.3 else choose.randbytes(length)


def number(*bounds):
    return lambda choose: choose.randrange(*bounds)


MANY = "with recursive c(n) as (select 1 union all select n + 1 from c where n < {})"  # so many numbers
# Of each statement how often it comes, and what draws its values: each is bound to a `?`, or written where the text has `{}`.
STATEMENTS = [
    (6, "insert into items(name, amount, body) values(?, ?, ?)", words, number(1000), body),
    (1, f"{MANY} insert into items(name, amount, body) select 'row ' || n, n * 7 % 100, zeroblob(n % 50) from c", number(1, 200)),
    (2, "update items set amount = amount + ?, name = ? where id % 17 = ?", number(9), words, number(17)),
    (1, "update items set body = ? where id = (select max(id) from items where id % 5 = ?)", body, number(5)),
    (1, "delete from items where id % 23 = ? or amount = ?", number(23), number(1000)),
    (1, "delete from items where id > ?", number(50, 400)),
    (2, "insert or replace into pairs values(?, ?)", number(30), number(30)),
    (1, "insert into pairs select a, b from pairs union all select ?, 1", number(30)),
    (1, "create table if not exists more{}(x, y default 'nothing')", number(3)),
    (1, "drop table if exists more{}", number(3)),
]
KINDS = [kind for often, *kind in STATEMENTS for _ in range(often)]


def statements(choose):
    """Statements with their values; savepoints are nested rightly, and may be rolled back."""
    depth = 0
    for _ in range(choose.choice([1, 1, 2, 5, 12])):
        sql, *draws = choose.choice(KINDS)
        values = tuple(draw(choose) for draw in draws)
        yield (sql.format(*values), ()) if "{}" in sql else (sql, values)
        if choose.random() < 0.2:
            depth += 1
            yield f"savepoint s{depth}", ()
        if depth and choose.random() < 0.3:
            yield f"{choose.choice(['rollback to', 'release'])} s{depth}", ()
            if choose.random() < 0.5:
                yield f"rollback to s{depth}", ()


def transaction(connection, seed, number):
    """Does a transaction, and returns the errors of its statements. Its number is in the table `done` afterwards, also where it rolls back."""
    choose, errors = random.Random(f"{seed} transaction {number}"), []
    connection.execute("begin immediate")
    for sql, values in list(statements(choose)):
        try:
            connection.execute(sql, values)
        except sqlite3.IntegrityError as error:
            errors.append(str(error))
        except sqlite3.OperationalError as error:
            if "no such savepoint" not in str(error):
                raise
            errors.append(str(error))
    if choose.random() < 0.2:
        connection.execute("rollback")
        connection.execute("begin immediate")
    connection.execute("update done set number = ?", (number,))
    connection.execute("commit")
    return errors
