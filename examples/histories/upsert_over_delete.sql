-- One transaction reads a row and puts it again; another deletes it meanwhile.
-- sdd history --turns "refill_1 clear_1 clear_1 refill_1 refill_1"
CREATE TABLE stock (id INT PRIMARY KEY, amount INT) AT D1;
INSERT INTO stock VALUES (2, 2);
TRANSACTION refill() AT T1;
  SELECT amount FROM stock;
  INSERT INTO stock VALUES (2, 7);
COMMIT;
TRANSACTION clear() AT T1;
  DELETE FROM stock WHERE id = 2 AND amount > 0;
COMMIT;
CALL refill();
CALL clear();
