<?php
// Logs a visitor in: the name of the session is made of what the visitor and the site alone know.
if (isset($_POST['name'])) {
    $sid = md5('a secret of this site|' . $_POST['name'] . '|' . $_POST['password']);
    header("Set-Cookie: sid=$sid; HttpOnly");
    header('Location: /note.php');
    exit;
}
?>
<!doctype html>
<title>Log in</title>
<link rel="stylesheet" href="/style.css">
<form method="post"><input name="name"> <input name="password" type="password"> <button>Log in</button></form>
