-- While one transaction reads two accounts, another moves money between them.
-- sdd history --turns "look_1 move_1 move_1 move_1 look_1 look_1"
CREATE TABLE account (id INT PRIMARY KEY, balance INT) AT D1;
INSERT INTO account VALUES (1, 500), (2, 500);
TRANSACTION look() AT T1;
  SELECT balance FROM account WHERE id = 1;
  SELECT balance FROM account WHERE id = 2;
COMMIT;
TRANSACTION move() AT T1;
  UPDATE account SET balance = balance - 100 WHERE id = 1;
  UPDATE account SET balance = balance + 100 WHERE id = 2;
COMMIT;
CALL look();
CALL move();
