<?php
// Mails a password to its owner. A line that printed it while the page was written has stayed: the policy that came back with the cell denies it.
$sent = false;
if (isset($_POST['name'])) {
    foreach (query('SELECT mail, password FROM users WHERE name = ' . sql_quote($_POST['name'])) as $user) {
        mail($user['mail'], 'Your password', $user['password']);
        if (isset($_POST['debug'])) echo 'debug: ', html($user['password']);
    }
    $sent = true;
}
head('Reminder');
if ($sent) echo "<p>If there is such a visitor, a mail is under way.</p>\n";
?>
<form method="post">
<label>Name <input name="name"></label>
<button>Send it</button>
</form>
