<?php
// A note that outlives the request in the visitor's session, with a policy that lets it out to that visitor alone.
if (isset($_POST['note'])) {
    $_SESSION['note'] = policy_add($_POST['note'], new OwnNote($_COOKIE['sid'] ?? ''));
}
?>
<!doctype html>
<title>Your note</title>
<link rel="stylesheet" href="/style.css">
<p>Your note: <?= htmlspecialchars($_SESSION['note'] ?? 'none yet') ?></p>
<form method="post"><input name="note"> <button>Keep it</button></form>
