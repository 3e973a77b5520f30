-- A bank with an eastern and a western half; D3 keeps a copy of both.
CREATE TABLE account (id INT PRIMARY KEY, owner TEXT, bal INT)
  PARTITION BY RANGE (id) (
    PARTITION east VALUES LESS THAN (1000) AT D1, D3,
    PARTITION west VALUES LESS THAN MAXVALUE AT D2, D3);
CREATE TABLE branch (id INT PRIMARY KEY, city VARCHAR(40)) AT D1, D2, D3;

INSERT INTO branch VALUES (1, 'east'), (2, 'west');
INSERT INTO account (id, owner, bal) VALUES (1, 'ann', 100), (2, 'bob', 50);
INSERT INTO account VALUES (1001, 'cy', 70);

TRANSACTION pay(:payer 1 TO 999, :payee 1 TO 999, :amount) AT T1;
  UPDATE account SET bal = bal - :amount WHERE id = :payer;
  UPDATE account SET bal = bal + :amount WHERE id = :payee;
COMMIT;

TRANSACTION send(:payer, :payee, :amount) AT T3;
  UPDATE account SET bal = bal - :amount WHERE id = :payer;
  UPDATE account SET bal = bal + :amount WHERE id = :payee;
COMMIT;

TRANSACTION open_account(:id 1000 TO 99999, :owner) AT T2;
  INSERT INTO account VALUES (:id, :owner, 0);
COMMIT;

TRANSACTION rich(:least) AT T2;
  SELECT owner, bal FROM account WHERE bal >= :least;
  SELECT a.owner, b.city FROM account AS a JOIN branch b ON a.id = b.id WHERE a.bal >= :least;
COMMIT;

CALL pay(1, 2, 30);
CALL send(2, 1001, 20);
CALL open_account(1002, 'di''s');
CALL rich(70);
