<?php
// Logs a visitor in. The name of the session is made of what the site and the visitor alone know, since a run has no random numbers.
function log_in($name, $password) {
    $found = query('SELECT name FROM users WHERE name = ' . sql_quote($name) . ' AND password = ' . sql_quote($password));
    if (count($found) == 0) return false;
    $sid = md5('change this in your copy|' . $name . '|' . $password);
    query('DELETE FROM sessions WHERE sid = ' . sql_quote($sid));
    query('INSERT INTO sessions VALUES (' . sql_quote($sid) . ', ' . sql_quote($name) . ')');
    header("Set-Cookie: sid=$sid; HttpOnly; SameSite=Strict; Path=/");
    return true;
}

$failed = false;
if ($_SERVER['REQUEST_METHOD'] == 'POST') {
    if (log_in($_POST['name'] ?? '', $_POST['password'] ?? '')) redirect('/');
    $failed = true;
}
head('Log in');
if ($failed) echo "<p class=\"problem\">No such name and password.</p>\n";
?>
<form method="post">
<label>Name <input name="name"></label>
<label>Password <input name="password" type="password"></label>
<button>Log in</button>
</form>
<p><a href="/reminder.php">Forgot it?</a></p>
