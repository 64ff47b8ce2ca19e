0000000000000000000000000000000000000000000000000000000000000000
-- A payroll. Wages are in whole euros a month; what a watcher learns of a raise is that there was one.
CREATE TABLE staff (id INT PRIMARY KEY, name VARCHAR(16), team VARCHAR(12), grade INT, wage INT) CAPACITY 12;
CREATE TABLE paid (staff INT, month INT, wage INT) CAPACITY 24;

INSERT INTO staff VALUES (1, 'Noor', 'kitchen', 2, 2900);
INSERT INTO staff VALUES (2, 'Pavel', 'kitchen', 1, 2450);
INSERT INTO staff VALUES (3, 'Ines', 'hall', 1, 2400);
INSERT INTO staff VALUES (4, 'Tom', 'hall', 3, 3600);
INSERT INTO staff VALUES (5, 'Yuki', 'office', 3, 3750);
INSERT INTO staff VALUES (6, 'Olu', 'kitchen', 1, 2450);

-- The month before the raise.
SELECT COUNT(*), SUM(wage), MIN(wage), MAX(wage) FROM staff;
SELECT team, COUNT(*), SUM(wage) FROM staff GROUP BY team;

-- Nobody of grade 1 is to have less than 2,600, and grade 2 gets 3,000. A raise in percent is worked out by who types it:
-- there is no arithmetic.
UPDATE staff SET wage = 2600 WHERE grade = 1 AND wage < 2600;
UPDATE staff SET wage = 3000, grade = 3 WHERE grade = 2;
UPDATE staff SET wage = wage WHERE grade = 3;
SELECT name, wage FROM staff WHERE NOT (team = 'office') AND (wage >= 3000 OR grade = 1);

-- Tom leaves, and a new colleague gets the empty slot.
DELETE FROM staff WHERE name = 'Tom';
INSERT INTO staff VALUES (7, 'Zofia', 'hall', 1, 2600);
SELECT id, name FROM staff WHERE team = 'hall';

-- March is paid.
INSERT INTO paid VALUES (1, 202503, 3000);
INSERT INTO paid VALUES (2, 202503, 2600);
INSERT INTO paid VALUES (3, 202503, 2600);
INSERT INTO paid VALUES (5, 202503, 3750);
INSERT INTO paid VALUES (7, 202503, 1300);
-- Who got another sum than the wage, and how much is the month in all?
SELECT name, paid.wage FROM staff JOIN paid ON staff.id = paid.staff WHERE staff.wage <> paid.wage;
SELECT month, COUNT(*), SUM(wage) FROM paid GROUP BY month;
-- A key can't be set, and a table that was dropped is gone.
UPDATE staff SET id = 8 WHERE name = 'Olu';
DROP TABLE paid;
SELECT COUNT(*) FROM paid;
