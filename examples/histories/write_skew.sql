-- Two doctors are on call. Each sees that the other is, and goes home.
-- sdd history --turns "ann_leaves_1 bob_leaves_1 ann_leaves_1 bob_leaves_1 ann_leaves_1 bob_leaves_1"
CREATE TABLE doctor (id INT PRIMARY KEY, name TEXT, on_call INT) AT D1;
INSERT INTO doctor VALUES (1, 'ann', 1), (2, 'bob', 1);
TRANSACTION ann_leaves() AT T1;
  SELECT name FROM doctor WHERE on_call = 1;
  UPDATE doctor SET on_call = 0 WHERE id = 1;
COMMIT;
TRANSACTION bob_leaves() AT T1;
  SELECT name FROM doctor WHERE on_call = 1;
  UPDATE doctor SET on_call = 0 WHERE id = 2;
COMMIT;
CALL ann_leaves();
CALL bob_leaves();
