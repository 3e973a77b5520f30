-- One client pays in, and looks at the account then. The look goes to the standby.
-- sdd history --sessions 1
CREATE TABLE account (id INT PRIMARY KEY, balance INT) AT D1;
INSERT INTO account VALUES (1, 500);
TRANSACTION pay_in() AT T1;
  UPDATE account SET balance = balance + 44 WHERE id = 1;
COMMIT;
TRANSACTION look() AT T1;
  SELECT balance FROM account WHERE id = 1;
COMMIT;
CALL pay_in();
CALL look();
