-- Views for the questions of docs/AUDIT.md, over a copy of a register's file:
--
--     sqlite3 -readonly -header -column copy.keyreg '.read office/audit.sql' 'SELECT * FROM standing'
--
-- All that is made here is TEMP: it lives in the shell alone, and nothing of it gets into the file. The codes, the
-- rules of states and of usage and the months are those of docs/SPECIFICATION.md. A file of version 1 answers too.

-- The moment at which a question is asked, which is the latest accepted one, and the days ahead of what is due. Both
-- may be set anew: UPDATE question SET now = unixepoch(), days = 90;
CREATE TEMP TABLE question (now INTEGER NOT NULL, days INTEGER NOT NULL);
INSERT INTO question SELECT latest, 60 FROM main.meta;

CREATE TEMP TABLE state_text (code INTEGER PRIMARY KEY, state TEXT NOT NULL);
INSERT INTO state_text VALUES (0, '-'), (1, 'Pre-Active'), (2, 'Active'), (3, 'Deactivated'), (4, 'Compromised'),
    (5, 'Destroyed'), (6, 'Destroyed-Compromised');

-- The key types with their usage periods, in months, where the office has set none.
CREATE TEMP TABLE type_text (code INTEGER PRIMARY KEY, type TEXT NOT NULL, originator INTEGER NOT NULL,
    recipient INTEGER NOT NULL);
INSERT INTO type_text VALUES (1, 'data-encryption', 24, 36), (2, 'authentication', 24, 36), (3, 'key-wrapping', 24, 36),
    (4, 'private-signature', 36, 0), (5, 'private-authentication', 24, 0), (6, 'private-transport', 24, 0),
    (7, 'master', 12, 0);

-- A file of version 1 has neither of these tables. A name without its database is looked for in the file first, and after
-- it in this one, which is in memory, and may be written to by a shell with -readonly too.
ATTACH 'file:version_2?mode=memory' AS version_2;
CREATE TABLE version_2.period (kind INTEGER PRIMARY KEY, originator INTEGER NOT NULL, recipient INTEGER NOT NULL);
CREATE TABLE version_2.quorum (key_no INTEGER PRIMARY KEY, need INTEGER NOT NULL);

-- The usage period of each type as the office set it last.
CREATE TEMP VIEW usage_period AS
SELECT code, type, coalesce(period.originator, type_text.originator) AS originator,
    coalesce(period.recipient, type_text.recipient) AS recipient
FROM type_text LEFT JOIN period ON period.kind = code;

-- Each key with NULL for a date that is not set.
CREATE TEMP VIEW dated AS
SELECT number, kind, owner, purpose, initial, nullif(activation, 253402300800) AS activation,
    nullif(protect_stop, 253402300800) AS protect_stop, nullif(deactivation, 253402300800) AS deactivation,
    nullif(destroyed, 253402300800) AS destroyed, nullif(compromised, 253402300800) AS compromised,
    nullif(occurrence, 253402300800) AS occurrence
FROM main.keys;

-- Each key in the state that its dates give at the moment of the question.
CREATE TEMP VIEW stated AS
SELECT *, CASE
        WHEN destroyed IS NOT NULL AND compromised IS NOT NULL THEN 'Destroyed-Compromised'
        WHEN destroyed IS NOT NULL THEN 'Destroyed'
        WHEN compromised IS NOT NULL THEN 'Compromised'
        WHEN activation IS NULL OR activation > now THEN 'Pre-Active'
        WHEN deactivation <= now THEN 'Deactivated'
        ELSE 'Active'
    END AS state
FROM dated, question;

-- Each key with what it may be used for. Special is under extraordinary circumstances with special permission.
CREATE TEMP VIEW standing AS
SELECT number, type, owner, purpose, state, iif(state = 'Active' AND protect_stop > now, 'yes', 'no') AS protects,
    CASE state WHEN 'Active' THEN 'yes' WHEN 'Deactivated' THEN 'special' WHEN 'Compromised' THEN 'special'
        ELSE 'no' END AS processes,
    strftime('%Y-%m-%dT%H:%M:%SZ', protect_stop, 'unixepoch') AS protect_stop,
    strftime('%Y-%m-%dT%H:%M:%SZ', deactivation, 'unixepoch') AS deactivation
FROM stated JOIN type_text ON code = kind;

-- Each accepted request: when, of whom, under which number, what, and its reply's key and state.
CREATE TEMP VIEW accepted AS
SELECT strftime('%Y-%m-%dT%H:%M:%SZ', moment, 'unixepoch') AS moment, caller, request.number, command, key_no AS key,
    state_text.state
FROM main.request JOIN state_text ON code = request.state
ORDER BY request.moment, request.rowid;

-- Each key that was compromised: since when (its Compromise Occurrence Date), when that was found (its Compromise
-- Date), who told it, with which reason, and its state now.
CREATE TEMP VIEW compromise AS
SELECT stated.number AS key, owner, strftime('%Y-%m-%dT%H:%M:%SZ', occurrence, 'unixepoch') AS since,
    strftime('%Y-%m-%dT%H:%M:%SZ', compromised, 'unixepoch') AS found, caller AS told_by,
    iif(command GLOB 'revoke ' || key_no || ' 2 *', 'Key Compromise', 'CA Compromise') AS reason, stated.state
FROM stated JOIN main.request ON key_no = stated.number AND command GLOB 'revoke ' || key_no || ' [23] *'
WHERE compromised IS NOT NULL;

-- Each key that was destroyed: when, who asked for it, and each approval that it was destroyed with: whose, since when.
CREATE TEMP VIEW destruction AS
SELECT stated.number AS key, strftime('%Y-%m-%dT%H:%M:%SZ', destroyed, 'unixepoch') AS destroyed,
    asked.caller AS asked_by, approval.name AS approved_by,
    strftime('%Y-%m-%dT%H:%M:%SZ', max(given.moment), 'unixepoch') AS approved
FROM stated JOIN main.request AS asked ON asked.command = 'destroy ' || stated.number
    JOIN main.approval ON approval.key_no = stated.number
    JOIN main.request AS given ON given.command = 'approve ' || stated.number AND given.caller = approval.name
WHERE destroyed IS NOT NULL
GROUP BY stated.number, approval.name;

-- The last moments that the usage period of its type leaves to each key. In a month without such a day it is the last
-- day. A limit past the range of moments is NULL.
CREATE TEMP VIEW limited AS
SELECT number,
    min(unixepoch(activation, 'unixepoch', '+' || originator || ' months'),
        unixepoch(activation, 'unixepoch', 'start of month', '+' || (originator + 1) || ' months', '-1 day')
            + activation % 86400) AS last_stop,
    min(unixepoch(protect_stop, 'unixepoch', '+' || recipient || ' months'),
        unixepoch(protect_stop, 'unixepoch', 'start of month', '+' || (recipient + 1) || ' months', '-1 day')
            + protect_stop % 86400) AS last_end
FROM dated JOIN usage_period ON code = kind;

-- Each Active key with its mark, as a report has it: overdue where its Protect Stop Date is reached, due where it is
-- within the days ahead, else long where the office set a shorter period after its dates, else none.
CREATE TEMP VIEW marked AS
SELECT *, CASE
        WHEN protect_stop <= now THEN 'overdue'
        WHEN protect_stop <= now + 86400 * days THEN 'due'
        WHEN protect_stop > last_stop OR deactivation > last_end THEN 'long'
    END AS mark
FROM stated JOIN limited USING (number) JOIN type_text ON code = kind
WHERE state = 'Active';

-- What is due for rotation.
CREATE TEMP VIEW due AS
SELECT number, strftime('%Y-%m-%dT%H:%M:%SZ', protect_stop, 'unixepoch') AS protect_stop, mark, type, owner, purpose
FROM marked
WHERE mark IS NOT NULL
ORDER BY marked.protect_stop, number;

-- Each key that has no Activation Date: nothing but a request makes it Active. Since when it is registered.
CREATE TEMP VIEW undated AS
SELECT number, type, owner, purpose, strftime('%Y-%m-%dT%H:%M:%SZ', initial, 'unixepoch') AS registered
FROM stated JOIN type_text ON code = kind
WHERE state = 'Pre-Active' AND activation IS NULL;

-- Each part that somebody has in a key: its owner's, or a custodian's, whose approval of its destruction stands or not.
CREATE TEMP VIEW part AS
SELECT owner AS name, 'owns' AS part, number AS key, type, state, purpose, NULL AS approves
FROM stated JOIN type_text ON code = kind
UNION ALL
SELECT custodian.name, 'guards', number, type, state, purpose, iif(approval.name IS NULL, 'no', 'yes')
FROM main.custodian JOIN stated ON number = custodian.key_no JOIN type_text ON code = kind
    LEFT JOIN main.approval ON approval.key_no = number AND approval.name = custodian.name
ORDER BY 1, 3;

-- Each destruction that somebody approved and that was not done: how many approvals stand, how many it needs, whose they
-- are, and which other custodians may give one. A key that is Active has to be revoked first.
CREATE TEMP VIEW pending AS
SELECT stated.number AS key, owner, state, count(approval.name) AS have, coalesce(quorum.need, 2) AS need,
    group_concat(approval.name, ' ') AS approved_by,
    group_concat(iif(approval.name IS NULL, custodian.name, NULL), ' ') AS others
FROM stated JOIN main.custodian ON custodian.key_no = stated.number
    LEFT JOIN main.approval ON approval.key_no = stated.number AND approval.name = custodian.name
    LEFT JOIN quorum ON quorum.key_no = stated.number
WHERE destroyed IS NULL
GROUP BY stated.number
HAVING have > 0;
