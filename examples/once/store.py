"""Tokens that count once, for every process of every machine that asks the same PostgreSQL."""
import contextlib
import select
import time

import psycopg2
import psycopg2.extensions

# For how many seconds a call waits for the database, whatever has become of it.
DEADLINE = 3.0
# What is held, and the numbers that all processes have in common: docs/ONCE.md says what they are for. One row of `memory` is locked by each call, so that
# all that one call does is one step for the others.
SCHEMA = """
    CREATE TABLE memory (most bigint, share bigint, opened bigint, latest bigint, span bigint, horizon bigint);
    CREATE TABLE taken (mark bytea PRIMARY KEY, owner bytea, moment bigint NOT NULL);
    CREATE INDEX taken_by_moment ON taken (moment);
    CREATE INDEX taken_by_owner ON taken (owner);
    CREATE FUNCTION take_once(its_mark bytea, its_owner bytea, its_moment bigint, grace bigint, issued bigint) RETURNS text LANGUAGE plpgsql AS $$
    DECLARE
        it memory;
        let_go bigint;
    BEGIN
        SELECT * INTO it FROM memory FOR UPDATE;
        it.latest := greatest(it.latest, floor(extract(epoch FROM clock_timestamp())));
        it.span := greatest(it.span, grace);
        UPDATE memory SET latest = it.latest, span = it.span;
        IF issued < it.opened THEN
            RETURN 'Before';
        ELSIF its_moment < it.horizon OR its_moment + grace < it.latest THEN
            RETURN 'Late';
        ELSIF EXISTS (SELECT FROM taken WHERE mark = its_mark) THEN
            RETURN 'Seen';
        END IF;
        WITH gone AS (DELETE FROM taken WHERE moment < it.latest - it.span RETURNING moment) SELECT max(moment) INTO let_go FROM gone;
        UPDATE memory SET horizon = greatest(horizon, let_go + 1);
        IF (SELECT count(*) FROM taken WHERE owner = its_owner) >= it.share THEN
            RETURN 'OwnFull';
        ELSIF (SELECT count(*) FROM taken) >= it.most THEN
            RETURN 'Full';
        END IF;
        INSERT INTO taken VALUES (its_mark, its_owner, its_moment);
        RETURN 'New';
    END $$;
    INSERT INTO memory VALUES (%(most)s, %(share)s, %(opened)s, 0, 0, 0)
"""
TAKE = "SELECT take_once(%(mark)s, %(owner)s, %(moment)s, %(grace)s, %(issued)s)"
# The greatest number that is put down, so that sums have room.
MOST = 2**62


class Store:
    """A store in one database, in which `set_up` was called once. Each process has a connection of its own."""

    def __init__(self, where: str) -> None:
        """`where` names the database, as psycopg2 takes it. Raises psycopg2.Error where it can't be asked."""
        psycopg2.extensions.set_wait_callback(_wait)
        self._where = where
        self._connection = self._connected()

    def set_up(self, tokens: int, share: int, opened: int) -> None:
        """Makes the tables, for at most so many tokens, of one owner at most `share`. What was issued before `opened` is refused from then on. It is called once,
        before anything else."""
        with self._connection.cursor() as cursor:
            cursor.execute(SCHEMA, {"most": tokens, "share": share, "opened": opened})

    def take(self, entry) -> "bool | str":
        """Whether what has this entry (fowharimu.OnceEntry) is new: then it never is again; else why it isn't taken. Raises psycopg2.Error where the database can't say it:
        the request is refused then."""
        values = {**entry._asdict(), **{name: min(getattr(entry, name), MOST) for name in ("moment", "grace", "issued")}}
        try:
            said = self._asked(values)
        except (psycopg2.OperationalError, psycopg2.InterfaceError):
            # (it was started anew, say; a token that the first call has taken is refused by the second one)
            self.close()
            self._connection = self._connected()
            said = self._asked(values)
        return True if said == "New" else said

    def close(self) -> None:
        """Ends the connection."""
        with contextlib.suppress(psycopg2.Error):
            self._connection.close()

    def _connected(self) -> "psycopg2.extensions.connection":
        connection = psycopg2.connect(self._where, connect_timeout=2, options="-c statement_timeout=2000")
        connection.autocommit = True
        return connection

    def _asked(self, values: dict) -> str:
        with self._connection.cursor() as cursor:
            cursor.execute(TAKE, values)
            return cursor.fetchone()[0]


def _wait(connection: "psycopg2.extensions.connection") -> None:
    """Waits until the database has answered, and no longer than the deadline. Raises psycopg2.OperationalError then."""
    end = time.monotonic() + DEADLINE
    while (state := connection.poll()) != psycopg2.extensions.POLL_OK:
        left = end - time.monotonic()
        reads, writes = [[connection] if state == it else [] for it in (psycopg2.extensions.POLL_READ, psycopg2.extensions.POLL_WRITE)]
        if left <= 0 or not any(select.select(reads, writes, [], left)):
            raise psycopg2.OperationalError("the database doesn't answer")
