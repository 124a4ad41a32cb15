<?php
// Takes a visitor in. The password is kept with its policy, beside the cell of the table.
function sign_up($name, $mail, $password) {
    if ($name === '' || strpos($mail, '@') === false || strlen($password) < 4) return 'A name, a mail address and a password of four letters or more, please.';
    if (count(query('SELECT name FROM users WHERE name = ' . sql_quote($name))) > 0) return 'This name is taken.';
    $kept = policy_add($password, new Password($mail));
    query('INSERT INTO users VALUES (' . sql_quote($name) . ', ' . sql_quote($mail) . ', ' . sql_quote($kept) . ')');
    return '';
}

$problem = '';
if ($_SERVER['REQUEST_METHOD'] == 'POST') {
    $problem = sign_up($_POST['name'] ?? '', $_POST['mail'] ?? '', $_POST['password'] ?? '');
    if ($problem === '') redirect('/login.php');
}
head('Sign up');
if ($problem !== '') echo '<p class="problem">', $problem, "</p>\n";
?>
<form method="post">
<label>Name <input name="name"></label>
<label>Mail <input name="mail"></label>
<label>Password <input name="password" type="password"></label>
<button>Sign up</button>
</form>
