<?php
// Sends a password to its owner. With `show` it is printed as well, which is a mistake: the policy that came back with the cell denies it.
foreach (sql_query('SELECT mail, password FROM users WHERE name = ' . sql_quote(input('name'))) as $user) {
    mail($user['mail'], 'Your password', $user['password']);
    echo 'Your password was sent.';
    if (isset($_GET['show'])) echo $user['password'];
}
