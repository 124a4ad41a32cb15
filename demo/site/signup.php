<?php
// Takes a visitor in. The password is kept with its policy, beside the cell of the table.
try {
    sql_query('CREATE TABLE users (name TEXT, mail TEXT, password TEXT)');
} catch (SqlException $e) {
    // The table is there from the second visitor on.
}
$mail = input('mail');
$password = policy_add(input('password'), new PasswordPolicy($mail));
sql_query('INSERT INTO users VALUES (' . sql_quote(input('name')) . ', ' . sql_quote($mail) . ', ' . sql_quote($password) . ')');
echo 'Welcome, ', htmlspecialchars(input('name')), '!';
