-- A withdrawal finds both accounts empty, so it costs a fee of 1. A deposit comes meanwhile, and somebody looks.
-- sdd history --turns "withdraw_1 deposit_1 deposit_1 look_1 look_1 look_1 withdraw_1 withdraw_1"
CREATE TABLE savings (id INT PRIMARY KEY, balance INT) AT D1;
CREATE TABLE checking (id INT PRIMARY KEY, balance INT) AT D1;
INSERT INTO savings VALUES (1, 0);
INSERT INTO checking VALUES (1, 0);
TRANSACTION withdraw() AT T1;
  SELECT balance FROM savings WHERE id = 1;
  UPDATE checking SET balance = balance - 11 WHERE id = 1;
COMMIT;
TRANSACTION deposit() AT T1;
  UPDATE savings SET balance = balance + 20 WHERE id = 1;
COMMIT;
TRANSACTION look() AT T1;
  SELECT balance FROM savings WHERE id = 1;
  SELECT balance FROM checking WHERE id = 1;
COMMIT;
CALL withdraw();
CALL deposit();
CALL look();
