0000000000000000000000000000000000000000000000000000000000000000
-- A clinic's visits. The keepers of the disk learn how many patients and visits there may be,
-- how long a row is, and how many rows an answer has: not whose they are, nor why they came.
CREATE TABLE patients (id INT PRIMARY KEY, name VARCHAR(24), born INT) CAPACITY 8;
CREATE TABLE visits (id INT PRIMARY KEY, patient INT, day INT, reason VARCHAR(24), fee INT) CAPACITY 16;

INSERT INTO patients VALUES (101, 'Ada Byron', 1815);
INSERT INTO patients VALUES (102, 'Grace Hopper', 1906);
INSERT INTO patients VALUES (103, 'Alan Turing', 1912);
INSERT INTO patients (name, born, id) VALUES ('Rosalind Franklin', 1920, 104);
-- A number that is taken: to a watcher this looks like the line before.
INSERT INTO patients VALUES (103, 'Mary Shelley', 1797);

INSERT INTO visits VALUES (1, 101, 20250303, 'fever', 80);
INSERT INTO visits VALUES (2, 103, 20250303, 'a broken wrist', 240);
INSERT INTO visits VALUES (3, 101, 20250310, 'fever, again', 80);
INSERT INTO visits VALUES (4, 104, 20250310, 'doctor''s note', 15);
INSERT INTO visits VALUES (5, 102, 20250311, 'check-up', 60);
-- Longer than its column.
INSERT INTO visits VALUES (6, 102, 20250311, 'she asked for the results of March', 60);

-- Who came on a day, and why?
SELECT name, reason FROM patients JOIN visits ON patients.id = visits.patient WHERE day = 20250310;
-- What does each of them owe?
SELECT patient, COUNT(*), SUM(fee) FROM visits GROUP BY patient;
-- The wrist was insured, and only a copy of the note was asked for.
UPDATE visits SET fee = 0 WHERE id = 2 OR reason = 'doctor''s note';
SELECT id, patient FROM visits WHERE fee = 0;
-- A patient leaves the clinic, and takes what it knew along.
DELETE FROM visits WHERE patient = 101;
DELETE FROM patients WHERE id = 101;
INSERT INTO visits VALUES (7, 104, 20250312, 'X-rays', 120);
SELECT COUNT(*), SUM(fee), MIN(day), MAX(day) FROM visits;
SELECT * FROM visits WHERE day >= 20250311;
SELECT * FROM patients WHERE born < 1900;
