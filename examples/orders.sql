0000000000000000000000000000000000000000000000000000000000000000
-- Orders of three tables. A join is asked for by a key of its left table, and shows a watcher how many pairs are selected.
CREATE TABLE customers (id INT PRIMARY KEY, name VARCHAR(20), city VARCHAR(12)) CAPACITY 8;
CREATE TABLE items (id INT PRIMARY KEY, name VARCHAR(20), price INT) CAPACITY 8;
CREATE TABLE orders (id INT PRIMARY KEY, customer INT, item INT, quantity INT) CAPACITY 16;

INSERT INTO customers VALUES (1, 'Birch & Sons', 'Oslo');
INSERT INTO customers VALUES (2, 'The "Blue" Door', 'Lund');
INSERT INTO customers VALUES (3, 'Elm', 'Oslo');
INSERT INTO items VALUES (10, 'nails, 1 kg', 7);
INSERT INTO items VALUES (11, 'hammer', 25);
INSERT INTO items VALUES (12, 'ladder', 140);
INSERT INTO orders VALUES (500, 2, 12, 1);
INSERT INTO orders VALUES (501, 1, 10, 40);
INSERT INTO orders VALUES (502, 1, 11, 2);
INSERT INTO orders VALUES (503, 3, 10, 5);
INSERT INTO orders VALUES (504, 2, 11, 1);
-- An item that nobody sells, and a customer whom nobody knows: they find no pair.
INSERT INTO orders VALUES (505, 1, 13, 1);
INSERT INTO orders VALUES (506, 9, 10, 3);

-- What goes to Oslo? (Rows come in the order of the right table's.)
SELECT customers.name, orders.id, quantity FROM customers JOIN orders ON customers.id = orders.customer WHERE city = 'Oslo';
-- The sides of ON may stand in either order, and columns may be compared with one another.
SELECT items.name, orders.id, price FROM items INNER JOIN orders ON orders.item = items.id WHERE price > 20;
SELECT items.name, quantity FROM items JOIN orders ON items.id = orders.item WHERE quantity >= price;
SELECT * FROM customers JOIN orders ON customers.id = orders.customer WHERE customers.id = 2 AND quantity = 1;
-- How often was each item ordered, and how many of it?
SELECT item, COUNT(*), SUM(quantity) FROM orders GROUP BY item;

-- What isn't in the language: a join by another column than a key, of a table with itself, and aggregates over one.
SELECT * FROM orders JOIN customers ON orders.customer = customers.id;
SELECT * FROM items JOIN items ON items.id = items.id;
SELECT COUNT(*) FROM items JOIN orders ON items.id = orders.item;
-- A name that both tables have.
SELECT name, id FROM items JOIN orders ON items.id = orders.item;

-- An order is delivered, and one is called off.
DELETE FROM orders WHERE id = 501 OR id = 505;
SELECT name, quantity FROM customers JOIN orders ON customers.id = orders.customer;
