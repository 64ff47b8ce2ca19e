0000000000000000000000000000000000000000000000000000000000000000
-- Goes on from the tables that first.sql left, with --save.
INSERT INTO patients VALUES (3, 'Alan');
INSERT INTO visits VALUES (3, 75);
SELECT name, cost FROM patients JOIN visits ON patients.id = visits.patient WHERE cost > 50;
SELECT patient, COUNT(*), SUM(cost) FROM visits GROUP BY patient;
