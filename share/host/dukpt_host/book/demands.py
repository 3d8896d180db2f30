"""What is demanded of the database before it is served over: that what it acknowledges is kept."""
from __future__ import annotations

from typing import Any, Final, Mapping

BOOK: Final = "The book of payments and reversals, form 1"
OLDEST: Final = 140000
# The values of synchronous_commit with which a commit waits for the disk of the standby; and with
# which it waits for the disk of the primary at least.
REPLICATED: Final = ("on", "remote_apply")
KEPT: Final = (*REPLICATED, "remote_write", "local")
STANDBY: Final = "the database is a standby"

QUESTION: Final = """
select pg_is_in_recovery() as is_standby,
    current_setting('server_version_num')::integer as version,
    obj_description(to_regnamespace('dukpt'), 'pg_namespace') as book,
    current_setting('fsync') as syncs,
    current_setting('synchronous_commit') as commits,
    count(*) filter (where state = 'streaming' and sync_state in ('sync', 'quorum')) as held,
    count(*) filter (where pid is not null and sync_state is null) as hidden
from pg_stat_replication
"""


def fault_of(found: Mapping[str, Any], is_replicated: bool) -> str:
    """Why the database cannot be served over: nothing where it can."""
    if found["is_standby"]:
        return STANDBY
    if found["version"] < OLDEST:
        return "PostgreSQL is older than 14"
    if found["book"] != BOOK:
        return "the database has no book of this form: schema.sql makes it"
    if found["syncs"] != "on":
        return "fsync is off"
    if found["commits"] not in (REPLICATED if is_replicated else KEPT):
        return f"synchronous_commit is {found['commits']}"
    if is_replicated and not found["held"]:
        if found["hidden"]:
            return "the role does not see the standbys: grant pg_read_all_stats to it"
        return "no standby is synchronous"
    return ""
