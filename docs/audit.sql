-- The auditor's queries over a copy of a book. AUDITORS.md says how to make the copy, and what the tables hold. All of
-- them at once:
--
--   sqlite3 -readonly -csv audit.desk < audit.sql
--
-- Each begins with its name, and gives no row on a good book, unless its text says otherwise. An error, such as
-- `integer overflow`, is a finding too. "Rule" is one of SPECIFICATION.md, "Sound books". The
-- texts of Q1 stand in one line each, since the schema's are compared with them.
--
-- Under a query stand faults that it finds. `bin/checks handbooks` puts each into a fresh copy of the book of
-- AUDITORS.md by `sqlite3 COPY "FAULT"`, and compares
--
--   gives    the rows that the query then gives, as -csv writes them (of Q1 only the first column);
--   others   which other queries give another result than on the book without the fault;
--   desk     what `desk report COPY 2024-03-05` does: it refuses the file by a number and a name, or opens it.

-- Q1, the schema is exactly that of a desk. There is no trigger, no view, and no further index or column. No UNIQUE
-- is missing.
SELECT 'Q1';
WITH wanted (sql) AS (VALUES
  ('CREATE TABLE desk (id INTEGER PRIMARY KEY, version INTEGER NOT NULL, date TEXT, phase INTEGER NOT NULL) STRICT'),
  ('CREATE TABLE participant (code TEXT PRIMARY KEY NOT NULL, name TEXT NOT NULL, key BLOB NOT NULL UNIQUE, credit INTEGER NOT NULL, balance INTEGER NOT NULL) STRICT'),
  ('CREATE TABLE posting (number INTEGER PRIMARY KEY, code TEXT NOT NULL, reference TEXT NOT NULL UNIQUE, cents INTEGER NOT NULL, date TEXT) STRICT'),
  ('CREATE TABLE payment (number INTEGER PRIMARY KEY, sender TEXT NOT NULL, reference TEXT NOT NULL, receiver TEXT NOT NULL, amount INTEGER NOT NULL, date TEXT NOT NULL, state INTEGER NOT NULL, mark INTEGER, UNIQUE (sender, reference)) STRICT'),
  ('CREATE TABLE mark (number INTEGER PRIMARY KEY, date TEXT NOT NULL, many INTEGER NOT NULL, value INTEGER NOT NULL) STRICT'),
  ('CREATE TABLE forward (number INTEGER PRIMARY KEY, due TEXT NOT NULL) STRICT'),
  ('CREATE TABLE resolution (id INTEGER PRIMARY KEY, automatic INTEGER NOT NULL) STRICT'))
SELECT 'missing' AS what, sql FROM wanted WHERE sql NOT IN (SELECT sql FROM sqlite_schema WHERE sql IS NOT NULL)
UNION ALL
SELECT 'foreign', sql FROM sqlite_schema WHERE sql IS NOT NULL AND sql NOT IN (SELECT sql FROM wanted);
-- fault: CREATE TRIGGER t AFTER INSERT ON posting BEGIN SELECT 1; END
-- gives: `foreign`
-- desk: 93 NotADeskFile
-- fault: ALTER TABLE posting ADD COLUMN more TEXT
-- gives: `missing`; `foreign`
-- others: Q15
-- desk: opens it

-- Q2, the file is whole, with its indexes: one row, `ok`.
SELECT 'Q2';
PRAGMA integrity_check;
-- fault: PRAGMA writable_schema = 1; UPDATE sqlite_schema SET sql = replace(sql, ' UNIQUE', '') WHERE name =
--        'posting'; DELETE FROM sqlite_schema WHERE name = 'sqlite_autoindex_posting_1'
-- gives: `"*** in database main ***`; `Page 9 is never used"`
-- others: Q1
-- desk: 91 StoreFault

-- Q3, forms: each value is in its form and range (the desk refuses a fault here with 93).
SELECT 'Q3';
SELECT 'desk' AS list, count(*) AS entry FROM desk HAVING count(*) <> 1
UNION ALL SELECT 'desk', id FROM desk WHERE id <> 1 OR version <> 3 OR phase NOT IN (0, 1, 2)
UNION ALL SELECT 'resolution', count(*) FROM resolution HAVING count(*) <> 1
UNION ALL SELECT 'resolution', id FROM resolution WHERE id <> 1 OR automatic NOT IN (0, 1)
UNION ALL SELECT 'forward', number FROM forward WHERE number NOT IN (SELECT number FROM payment)
UNION ALL SELECT 'participant', code FROM participant
  WHERE code NOT GLOB '[A-Z]*' OR code GLOB '*[^A-Z0-9]*' OR length(CAST(code AS BLOB)) NOT BETWEEN 3 AND 8
    OR length(CAST(code AS BLOB)) <> length(code) OR name <> trim(name) OR name GLOB '*[^ -~]*'
    OR length(CAST(name AS BLOB)) NOT BETWEEN 1 AND 40 OR length(CAST(name AS BLOB)) <> length(name)
    OR length(key) <> 32 OR credit NOT BETWEEN 0 AND 100000000000000
UNION ALL SELECT 'posting', number FROM posting
  WHERE cents = 0 OR cents NOT BETWEEN -1000000000000000 AND 1000000000000000
UNION ALL SELECT 'payment', number FROM payment WHERE amount NOT BETWEEN 1 AND 1000000000000
    OR state NOT IN (0, 1, 2, 3, 4) OR (state = 1) <> (mark IS NOT NULL)
    OR (state = 4 AND number NOT IN (SELECT number FROM forward))
UNION ALL SELECT list, entry FROM (
  SELECT 'posting' AS list, number AS entry, reference FROM posting
  UNION ALL SELECT 'payment', number, reference FROM payment)
  WHERE reference GLOB '*[^A-Z0-9-]*' OR length(CAST(reference AS BLOB)) NOT BETWEEN 1 AND 16
    OR length(CAST(reference AS BLOB)) <> length(reference)
UNION ALL SELECT list, entry FROM (
  SELECT 'desk' AS list, id AS entry, date FROM desk UNION ALL SELECT 'posting', number, date FROM posting
  UNION ALL SELECT 'payment', number, date FROM payment UNION ALL SELECT 'mark', number, date FROM mark
  UNION ALL SELECT 'forward', number, due FROM forward)
  WHERE date IS NOT NULL AND (date(date, '+0 days') IS NOT date OR date NOT BETWEEN '2000-01-01' AND '2999-12-31');
-- fault: UPDATE desk SET version = 1
-- gives: `desk,1`
-- desk: 93 NotADeskFile
-- fault: DELETE FROM resolution
-- gives: `resolution,0`
-- desk: 93 NotADeskFile
-- fault: UPDATE resolution SET automatic = 2
-- gives: `resolution,1`
-- desk: 93 NotADeskFile
-- fault: INSERT INTO forward VALUES (11, '2024-03-06')
-- gives: `forward,11`
-- desk: 93 NotADeskFile
-- fault: UPDATE payment SET state = 4 WHERE number = 9
-- gives: `payment,9`
-- desk: 93 NotADeskFile
-- fault: UPDATE payment SET amount = 0 WHERE number = 3
-- gives: `payment,3`
-- others: Q15
-- desk: 93 NotADeskFile
-- fault: UPDATE payment SET date = '2024-02-30' WHERE number = 3
-- gives: `payment,3`
-- others: Q11 Q15
-- desk: 93 NotADeskFile

-- Q4, numbers (rules 1 to 3): orders, postings and marks are numbered from 1 without a gap. The query gives a row for
-- each list that is not numbered so: how many entries it has, its first number and its last.
SELECT 'Q4';
SELECT list, count(*) AS entries, min(number) AS first, max(number) AS last FROM (
  SELECT 'payment' AS list, number FROM payment UNION ALL SELECT 'posting', number FROM posting
  UNION ALL SELECT 'mark', number FROM mark)
GROUP BY list HAVING min(number) <> 1 OR max(number) <> count(*) OR max(number) > 999999999;
-- fault: UPDATE payment SET number = 11 WHERE number = 9
-- gives: `payment,10,1,11`
-- desk: 94 Inconsistent 1
-- fault: DELETE FROM posting WHERE number = 1
-- gives: `posting,3,2,4`
-- others: Q13 Q14 Q15
-- desk: 94 Inconsistent 2
-- fault: UPDATE mark SET number = 5 WHERE number = 4; UPDATE payment SET mark = 5 WHERE mark = 4
-- gives: `mark,4,1,5`
-- desk: 94 Inconsistent 3

-- Q5, uniqueness (rules 4 to 7): codes, digests of keys, references of a sender's orders and references of postings
-- each occur once, and there are at most 100 participants. The query reads the rows of the tables and uses no index,
-- since an index may be wrong.
SELECT 'Q5';
SELECT 'code' AS what, code AS twice FROM participant NOT INDEXED GROUP BY +code HAVING count(*) > 1
UNION ALL SELECT 'key', hex(key) FROM participant NOT INDEXED GROUP BY hex(key) HAVING count(*) > 1
UNION ALL SELECT 'order', sender || ' ' || reference FROM payment NOT INDEXED
  GROUP BY sender || ' ' || reference HAVING count(*) > 1
UNION ALL SELECT 'posting', reference FROM posting NOT INDEXED GROUP BY +reference HAVING count(*) > 1
UNION ALL SELECT 'participants', count(*) FROM participant HAVING count(*) > 100;
-- fault: CREATE TABLE x (number INTEGER PRIMARY KEY, code TEXT NOT NULL, reference TEXT NOT NULL, cents INTEGER NOT
--        NULL, date TEXT) STRICT; INSERT INTO x SELECT * FROM posting; DROP TABLE posting; ALTER TABLE x RENAME TO
--        posting; UPDATE posting SET reference = 'P-1' WHERE number = 2
-- gives: `posting,P-1`
-- others: Q1 Q15
-- desk: 94 Inconsistent 7

-- Q6, parties (rule 8): each code that a posting or an order names is a participant's, and no order has the same
-- sender and receiver.
SELECT 'Q6';
SELECT 'posting' AS list, number, code AS party FROM posting WHERE code NOT IN (SELECT code FROM participant)
UNION ALL SELECT 'payment', number, sender FROM payment WHERE sender NOT IN (SELECT code FROM participant)
UNION ALL SELECT 'payment', number, receiver FROM payment
  WHERE receiver NOT IN (SELECT code FROM participant) OR receiver = sender;
-- fault: UPDATE payment SET receiver = 'OMEG' WHERE number = 9
-- gives: `payment,9,OMEG`
-- desk: 94 Inconsistent 8

-- Q7, finality (rule 9): each settled order has a mark that exists and has the date of the order, and no other order
-- has a mark.
SELECT 'Q7';
SELECT o.number, o.state, o.mark, o.date, m.date AS date_of_mark FROM payment o LEFT JOIN mark m ON m.number = o.mark
WHERE CASE WHEN o.state = 1 THEN o.mark IS NULL OR m.number IS NULL OR m.date <> o.date ELSE o.mark IS NOT NULL END;
-- fault: UPDATE payment SET mark = 9 WHERE number = 7
-- gives: `7,1,9,2024-03-05,`
-- others: Q8
-- desk: 94 Inconsistent 9
-- fault: UPDATE payment SET mark = NULL WHERE number = 7
-- gives: `7,1,,2024-03-05,`
-- others: Q3 Q8
-- desk: 93 NotADeskFile
-- fault: UPDATE payment SET date = '2024-03-05' WHERE number = 6
-- gives: `6,1,2,2024-03-05,2024-03-04`
-- others: Q15
-- desk: 94 Inconsistent 9

-- Q8, marks (rule 9): each mark has at least one order, and its count and value are those of its orders.
SELECT 'Q8';
SELECT m.number, m.many, count(o.number) AS orders, m.value, coalesce(sum(o.amount), 0) AS value_of_orders
FROM mark m LEFT JOIN payment o ON o.mark = m.number AND o.state = 1
GROUP BY m.number HAVING count(o.number) = 0 OR m.many <> count(o.number) OR m.value <> coalesce(sum(o.amount), 0);
-- fault: UPDATE mark SET many = 4 WHERE number = 2
-- gives: `2,4,3,450000,450000`
-- others: Q15
-- desk: 94 Inconsistent 9
-- fault: UPDATE mark SET value = 450001 WHERE number = 2
-- gives: `2,3,3,450001,450000`
-- others: Q15
-- desk: 94 Inconsistent 9

-- Q9, queues (rule 10): nothing is queued while the desk is closed. At other times each queue has only orders of the
-- business date. No sender has more than 500 queued and held orders.
SELECT 'Q9';
SELECT o.sender, min(o.number) AS first, count(*) AS queued FROM payment o, desk d WHERE o.state = 0
GROUP BY o.sender HAVING max(d.phase) = 0 OR min(o.date) <> max(d.date) OR max(o.date) <> max(d.date)
UNION ALL SELECT sender, min(number), count(*) FROM payment WHERE state IN (0, 4) GROUP BY sender HAVING count(*) > 500;
-- fault: UPDATE payment SET state = 0 WHERE number = 3
-- gives: `ALFA,3,3`
-- others: Q15
-- desk: 94 Inconsistent 10
-- fault: UPDATE desk SET phase = 0
-- gives: `ALFA,8,2`
-- others: Q12
-- desk: 94 Inconsistent 10

-- Q10, first in, first out: among the orders of one sender on one day, no settled order has a greater number than an
-- order that is queued or was rejected. And of two settled orders of one sender with the same date, the one with the
-- greater number never has the earlier mark. Both follow from the rules of the commands (no order overtakes another,
-- and only beginnings of queues settle). They are not among the rules of sound books: the desk opens a file that
-- breaks them.
SELECT 'Q10';
WITH waiting AS (SELECT sender, date, min(number) AS number FROM payment WHERE state IN (0, 3) GROUP BY sender, date)
SELECT o.sender, o.number, o.mark, w.number AS overtaken FROM payment o JOIN waiting w USING (sender, date)
WHERE o.state = 1 AND o.number > w.number
UNION ALL
SELECT sender, number, mark, before FROM (
  SELECT sender, number, mark, lag(mark) OVER (PARTITION BY sender, date ORDER BY number) AS marked,
    lag(number) OVER (PARTITION BY sender, date ORDER BY number) AS before FROM payment WHERE state = 1)
WHERE mark < marked;
-- fault: UPDATE payment SET state = 1, mark = 5 WHERE number = 9; INSERT INTO mark VALUES (5, '2024-03-05', 1, 100);
--        UPDATE participant SET balance = balance - 100 WHERE code = 'ALFA'; UPDATE participant SET balance = balance
--        + 100 WHERE code = 'BETA'
-- gives: `ALFA,9,5,8`
-- desk: opens it
-- fault: UPDATE payment SET mark = 3 - mark WHERE number IN (1, 2); UPDATE mark SET value = CASE number WHEN 1 THEN
--        150000 ELSE 420000 END WHERE number IN (1, 2)
-- gives: `ALFA,2,1,1`
-- others: Q15
-- desk: opens it

-- Q11, dates (rule 11): a desk that is open or cut off has a date. All dates are weekdays, due dates too. If orders
-- without a due date are listed by rising number, their dates never fall. The same holds for marks and for postings.
-- Of these no date is later than the business date, and postings without a date come first. No order with a due date
-- has an earlier date. A held order has its due date, which is later than the business date. An order with a due date
-- that is queued, settled or rejected is not dated after the business date; one that was withdrawn may have its due
-- date. The desk does not test whether the date of a posting is a weekday; this query does.
SELECT 'Q11';
WITH entry (list, number, date) AS (
  SELECT 'payment', number, date FROM payment WHERE number NOT IN (SELECT number FROM forward)
  UNION ALL SELECT 'mark', number, date FROM mark
  UNION ALL SELECT 'posting', number, coalesce(date, '') FROM posting),
forwarded AS (SELECT o.number, o.date, o.state, f.due, (SELECT coalesce(max(date), '') FROM desk) AS day
  FROM payment o JOIN forward f USING (number)),
ordered AS (SELECT *, lag(date, 1, '') OVER (PARTITION BY list ORDER BY number) AS before FROM entry)
SELECT list, number, date, 'out of order' AS fault FROM ordered WHERE date < before
UNION ALL SELECT list, number, date, 'after the day' FROM entry WHERE date > (SELECT coalesce(max(date), '') FROM desk)
UNION ALL SELECT list, number, date, 'weekend' FROM entry WHERE strftime('%w', date) IN ('0', '6')
UNION ALL SELECT 'payment', number, date, 'weekend' FROM forwarded
  WHERE strftime('%w', date) IN ('0', '6') OR strftime('%w', due) IN ('0', '6')
UNION ALL SELECT 'payment', number, date, 'before it is due' FROM forwarded WHERE date < due
UNION ALL SELECT 'payment', number, date, 'held too long' FROM forwarded WHERE state = 4 AND (date <> due OR due <= day)
UNION ALL SELECT 'payment', number, date, 'after the day' FROM forwarded
  WHERE date > day AND state <> 4 AND NOT (state = 2 AND date = due)
UNION ALL SELECT 'desk', id, date, 'weekend' FROM desk WHERE strftime('%w', date) IN ('0', '6')
UNION ALL SELECT 'desk', id, date, 'no date' FROM desk WHERE phase <> 0 AND date IS NULL;
-- fault: UPDATE posting SET date = '2024-03-04' WHERE number = 1
-- gives: `posting,2,"","out of order"`
-- others: Q15
-- desk: 94 Inconsistent 11
-- fault: INSERT INTO forward VALUES (1, '2024-03-06')
-- gives: `payment,1,2024-03-04,"before it is due"`
-- others: Q15
-- desk: 94 Inconsistent 11
-- fault: UPDATE payment SET state = 4 WHERE number = 9; INSERT INTO forward VALUES (9, '2024-03-05')
-- gives: `payment,9,2024-03-05,"held too long"`
-- desk: 94 Inconsistent 11
-- fault: UPDATE posting SET date = '2024-03-02' WHERE number = 4
-- gives: `posting,4,2024-03-02,weekend`
-- others: Q15
-- desk: opens it

-- Q12, floors (rule 12): no balance is below its floor. The floor is 0 while the desk is closed, and minus the credit
-- limit at other times.
SELECT 'Q12';
SELECT p.code, p.balance, CASE d.phase WHEN 0 THEN 0 ELSE -p.credit END AS floor FROM participant p, desk d
WHERE p.balance < CASE d.phase WHEN 0 THEN 0 ELSE -p.credit END;
-- fault: UPDATE participant SET credit = 44998 WHERE code = 'ALFA'
-- gives: `ALFA,-44999,-44998`
-- desk: 94 Inconsistent 12

-- Q13, conservation (rule 13): one row with two sums, of all balances and of all postings. On a good book both are
-- the same, and at most 1000000000000000; the book of OPERATORS.md gives 165000 and 165000.
SELECT 'Q13';
SELECT (SELECT coalesce(sum(balance), 0) FROM participant) AS balances,
  (SELECT coalesce(sum(cents), 0) FROM posting) AS postings;
-- fault: UPDATE participant SET balance = balance + 1 WHERE code = 'ALFA'
-- gives: `165001,165000`
-- others: Q14
-- desk: 94 Inconsistent 14
-- fault: UPDATE posting SET cents = 1000000000000000 WHERE number = 1; UPDATE participant SET balance = balance +
--        999999999900000 WHERE code = 'ALFA'
-- gives: `1000000000065000,1000000000065000`
-- others: Q15
-- desk: 94 Inconsistent 13

-- Q14, balances (rule 14): each stored balance is the sum of postings and settled orders, computed from scratch.
SELECT 'Q14';
SELECT code, balance, scratch FROM (SELECT p.code, p.balance,
  (SELECT coalesce(sum(cents), 0) FROM posting WHERE code = p.code)
  + (SELECT coalesce(sum(amount), 0) FROM payment WHERE receiver = p.code AND state = 1)
  - (SELECT coalesce(sum(amount), 0) FROM payment WHERE sender = p.code AND state = 1) AS scratch
  FROM participant p) WHERE balance <> scratch;
-- fault: UPDATE participant SET balance = balance + 1 WHERE code = 'ALFA'; UPDATE participant SET balance = balance -
--        1 WHERE code = 'BETA'
-- gives: `ALFA,-44998,-44999`; `BETA,144998,144999`
-- desk: 94 Inconsistent 14

-- Q16, the choice (rule 15): while the desk is closed, no automatic day is chosen.
SELECT 'Q16';
SELECT d.date, r.automatic FROM desk d, resolution r WHERE d.phase = 0 AND r.automatic <> 0;
-- fault: UPDATE desk SET phase = 0; UPDATE resolution SET automatic = 1; UPDATE payment SET state = 3 WHERE state =
--        0; INSERT INTO posting VALUES (5, 'ALFA', 'P-9', 50000, '2024-03-05'); UPDATE participant SET balance =
--        balance + 50000 WHERE code = 'ALFA'
-- gives: `2024-03-05,1`
-- others: Q13
-- desk: 94 Inconsistent 15

-- Q15, two copies: every participant, posting, order and mark of an older copy of the book stands unchanged in the
-- newer one. Only credit limits, balances, the state and mark of an order that was queued or held, and the date of
-- one that was held may differ. (A copy of version 1 has no table `forward`: leave the three lines with that table
-- out.) Here `closed.desk` is the copy that was made when the first day was closed.
SELECT 'Q15';
ATTACH 'closed.desk' AS old;
SELECT 'participant' AS list, code AS entry FROM (
  SELECT code, name, key FROM old.participant EXCEPT SELECT code, name, key FROM main.participant)
UNION ALL SELECT 'posting', number FROM (SELECT * FROM old.posting EXCEPT SELECT * FROM main.posting)
UNION ALL SELECT 'mark', number FROM (SELECT * FROM old.mark EXCEPT SELECT * FROM main.mark)
UNION ALL SELECT 'forward', number FROM (SELECT * FROM old.forward EXCEPT SELECT * FROM main.forward)
UNION ALL SELECT 'forward', number FROM main.forward WHERE number IN (SELECT number FROM old.payment)
  AND number NOT IN (SELECT number FROM old.forward)
UNION ALL SELECT 'payment', number FROM (
  SELECT * FROM old.payment WHERE state NOT IN (0, 4) EXCEPT SELECT * FROM main.payment)
UNION ALL SELECT 'payment', number FROM (
  SELECT number, sender, reference, receiver, amount, date FROM old.payment WHERE state <> 4
  EXCEPT SELECT number, sender, reference, receiver, amount, date FROM main.payment)
UNION ALL SELECT 'payment', number FROM (
  SELECT number, sender, reference, receiver, amount FROM old.payment WHERE state = 4
  EXCEPT SELECT number, sender, reference, receiver, amount FROM main.payment)
UNION ALL SELECT 'payment', n.number FROM main.payment n JOIN old.mark m ON m.number = n.mark
  WHERE n.number NOT IN (SELECT number FROM old.payment WHERE state = 1);
-- fault: UPDATE payment SET amount = amount + 1 WHERE number = 3
-- gives: `payment,3`; `payment,3`
-- desk: opens it
-- fault: INSERT INTO forward VALUES (1, '2024-03-04')
-- gives: `forward,1`
-- desk: opens it
-- fault: UPDATE participant SET key = zeroblob(32) WHERE code = 'ALFA'
-- gives: `participant,ALFA`
-- desk: opens it
-- fault: UPDATE payment SET amount = amount + 1 WHERE number = 1; UPDATE mark SET value = value + 1 WHERE number = 1;
--        UPDATE participant SET balance = balance - 1 WHERE code = 'ALFA'; UPDATE participant SET balance = balance +
--        1 WHERE code = 'BETA'
-- gives: `mark,1`; `payment,1`; `payment,1`
-- desk: opens it

-- What no query finds. The first of these breaks rule 16, which only the search of the desk can tell: on an automatic
-- day no queued orders could settle together. After the other two the book is sound, so that nothing but evidence from
-- elsewhere shows that they never happened.
-- fault: UPDATE resolution SET automatic = 1; UPDATE participant SET credit = 60000 WHERE code = 'ALFA'
-- desk: 94 Inconsistent 16
-- fault: UPDATE resolution SET automatic = 1
-- desk: opens it
-- fault: INSERT INTO posting VALUES (5, 'GAMA', 'P-9', 500, '2024-03-05'); UPDATE participant SET balance = balance +
--        500 WHERE code = 'GAMA'
-- others: Q13
-- desk: opens it
