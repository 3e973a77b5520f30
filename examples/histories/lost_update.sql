-- Two programs read a balance, compute, and write what they computed.
-- sdd history --client --turns "pay_in_1 take_out_1 pay_in_1 pay_in_1 take_out_1 take_out_1"
CREATE TABLE account (id INT PRIMARY KEY, balance INT) AT D1;
INSERT INTO account VALUES (1, 500);
TRANSACTION pay_in() AT T1;
  UPDATE account SET balance = balance + 44 WHERE id = 1;
COMMIT;
TRANSACTION take_out() AT T1;
  UPDATE account SET balance = balance - 30 WHERE id = 1;
COMMIT;
CALL pay_in();
CALL take_out();
