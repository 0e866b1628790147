"""Each wrong edit still applies to the crate that it is for: those that the gate tries (crates/*/must-fail/), those
that `make mutants` tries (mutants/) and their controls. The gate tries at most 40, and none of them is in
mutants/ too. The mistakes that the promises of docs/proofs.md are about are among all of these, each in the crates that
could make it."""
from tests.support.edits import CRATES, MUTANTS, changes, why_not
from tests.support.running import Checks

MOST = 40
# A mistake and the crates whose contracts must refuse it. Three more are tests (docs/proofs.md): a crew that is served
# by one thread, a program that always refuses, and letters that are posted in the collector's thread.
MISTAKES = {
    "append-always-closed": ["dsn_book"],
    "append-recorded-twice": ["dsn_book", "dsn_crew"],
    "append-reopens-discarded-log": ["dsn_book"],
    "boundary-never-searched": ["dsn_report"],
    "bytes-after-body-accepted": ["dsn_frame"],
    "crew-asks-nothing": ["dsn_crew"],
    "dots-not-doubled": ["dsn_report"],
    "empty-log-reported": ["dsn_book", "dsn_report"],
    "forget-drops-open-log": ["dsn_book"],
    "full-table-closes-key": ["dsn_book"],
    "journal-not-read-as-it-is-opened": ["dsn_journal"],
    "journal-written-in-memory-alone": ["dsn_journal"],
    "last-request-dropped": ["dsn_crew"],
    "letter-put-off-for-ever-told-as-accepted": ["dsn_submission"],
    "letter-put-off-told-as-settled": ["dsn_submission"],
    "letters-after-write-fault": ["dsn_report"],
    "mark-noted-before-it-is-durable": ["dsn_hand_in"],
    "mark-told-before-the-server-is-asked": ["dsn_submission"],
    "null-return-path-notified": ["dsn_book"],
    "outcomes-newest-first": ["dsn_outcome", "dsn_report"],
    "positive-reply-to-data-accepted": ["dsn_smtp"],
    "refused-letter-settled-although-it-was-not-kept": ["dsn_submission"],
    "reply-invented": ["dsn_crew", "noticed_lib"],
    "reply-to-data-not-waited-for": ["dsn_smtp"],
    "request-answered-locally": ["dsn_crew"],
    "requests-of-one-agent-exchanged": ["dsn_crew"],
    "second-letter-taken-while-one-is-in-hand": ["dsn_submission"],
    "server-asked-beside-a-deed": ["dsn_hand_in"],
    "second-file-not-synced-before-its-name": ["dsn_journal"],
    "session-reads-nothing": ["dsn_crew", "noticed_lib"],
    "shorter-journal-never-gets-its-name": ["dsn_journal"],
    "sixteen-letters-on-their-way-to-the-server": ["dsn_hand_in"],
    "status-leading-zero-accepted": ["dsn_text"],
    "two-daemons-on-one-journal": ["dsn_journal"],
    "unposted-letters-dropped": ["dsn_crew", "dsn_report"],
    "unsynced-journal-told-as-synced": ["dsn_journal"],
    "write-fault-without-cause": ["dsn_report"],
}


def main():
    checks = Checks("edits: each wrong edit applies to its crate, and the gate tries those that tell most")
    tried = {(it.parts[-3], it.stem): it for it in sorted(CRATES.glob("*/must-fail/*.edit"))}
    others = {(it.parts[-2], it.stem): it for it in sorted(MUTANTS.glob("*/*.edit"))}
    controls = {(it.parts[-3], it.stem): it for it in sorted(MUTANTS.glob("*/controls/*.edit"))}
    for edits in (tried, others, controls):
        for (crate, name), edit in edits.items():
            checks.equal(f"{crate}/{name} can't be applied since", why_not(edit, crate), "")
    for (crate, name), control in controls.items():
        places = [[(it.file, it.old) for it in changes(edit)] for edit in (control, others.get((crate, name), control))]
        are_same = (crate, name) in others and places[0] == places[1]
        checks.true(f"the control {crate}/{name} changes the places of its edit", are_same)
    checks.true(f"the gate tries {len(tried)} edits, at most {MOST}", len(tried) <= MOST)
    checks.equal("edits of the gate that are in mutants/ too", sorted(tried.keys() & others.keys()), [])
    for name, crates in MISTAKES.items():
        for crate in crates:
            checks.true(f"{crate}/{name} is tried", (crate, name) in tried.keys() | others.keys())
    checks.done()


if __name__ == "__main__":
    main()
